"""Files of which a script writes some parts: each part is between two comments that say so."""
import re

from .source import Fault

BEGIN = "Written by tools/kinds.py down to the next such comment; edits are lost."
END = "End of the part that tools/kinds.py writes."
COMMENTS = {".rt": "//", ".antt": "--"}


def laid_out(text, sign):
    """A part in the layout of `rt fmt`: a blank line after all but imports, and in code one before it too."""
    text = text.strip("\n")
    return text + "\n" if text.lstrip().startswith(("use ", "pub use ")) else f"\n{text}\n\n" if sign == "//" else f"{text}\n\n"


def with_parts(path, parts):
    """The file with these texts as its parts, in order."""
    sign = COMMENTS[path.suffix]
    begin, end = f"{sign} {BEGIN}\n", f"{sign} {END}\n"
    pieces = re.split(rf"(?<={re.escape(begin)})(.*?)(?=^ *{re.escape(end)})", path.read_text(), flags=re.S | re.M)
    if len(pieces) != 2 * len(parts) + 1:
        raise Fault(f"{path} has {len(pieces) // 2} parts between comments, not {len(parts)}")
    pieces[1::2] = [laid_out(text, sign) for text in parts]
    return "".join(pieces)
