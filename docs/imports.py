"""The imports of a file, each with the whole path of its module."""
import re

IMPORT = re.compile(r"^((?:unfoldable |pub |ghost )*use )(Rattle[\w.+-]*)\.\{([^{}]*)\}(;?)$", re.M)


def opened(text):
    """The text with a line for each name that an import takes by a path inside its braces."""

    def lines(found):
        use, path, names, end = found.groups()
        every = [f"{path}.{name.strip()}".partition(" as ")[0].rpartition(".") for name in names.split(",")]
        return "\n".join(f"{use}{module}.{{{name}}}{end}" for module, _, name in every)

    return IMPORT.sub(lines, text)
