/* A small program whose debug information is split off. Made into hello.dwo by
     gcc -c -g -O0 -gdwarf-4 -gsplit-dwarf -fdebug-prefix-map="$PWD"=. hello.c
   (gcc 12.2, x86-64), which leaves hello.o and hello.dwo. */
struct point {
    int x;
    int y;
};

static int distance(struct point a, struct point b)
{
    int dx = a.x - b.x;
    int dy = a.y - b.y;
    return dx * dx + dy * dy;
}

int main(void)
{
    struct point origin = {0, 0};
    struct point corner = {3, 4};
    return distance(origin, corner) == 25 ? 0 : 1;
}
