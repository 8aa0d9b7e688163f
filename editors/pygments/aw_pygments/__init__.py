"""A Pygments lexer for specifications and schedules of aw."""
from __future__ import annotations

from pygments.lexer import RegexLexer, bygroups
from pygments.token import Comment, Error, Keyword, Name, Number, Punctuation, String, Whitespace

__all__ = ["AwLexer"]

NAME = r"[a-z][a-z0-9_]{0,63}"
END = r"(?![a-z0-9_#/.])"


class AwLexer(RegexLexer):
    """Words are not reserved: they count at the beginning of a line alone."""

    name = "aw"
    aliases = ["aw"]
    filenames = ["*.aw"]
    mimetypes = ["text/x-aw"]

    tokens = {
        "root": [
            (r"[ \t\r]*%[^\n]*", Comment.Single),
            (r"[ \t\r\n]+", Whitespace),
            (r"(rule)([ \t]+)(%s)%s" % (NAME, END), bygroups(Keyword.Declaration, Whitespace, Name.Function), "line"),
            (r"(role|con|sort|type|shape|carry|depends|offer)([ \t]+)(%s)%s" % (NAME, END), bygroups(Keyword.Declaration, Whitespace, Name.Class), "line"),
            (r"(role|con|sort|start|offer|use|type|shape|carry|depends|free|rule|schedule)%s" % END, Keyword.Declaration, "line"),
            (r"(choose|deliver|settle|list)%s" % END, Keyword, "line"),
            (r"(?=.)", Whitespace, "line"),
        ],
        "line": [
            (r"\n", Whitespace, "#pop"),
            (r"[ \t\r]+", Whitespace),
            (r'"', String.Double, "text"),
            (r"%s#(?:0|[1-9][0-9]*)(?:/%s\.[1-8])*%s" % (NAME, NAME, END), Name.Label),
            (r"(?:0|[1-9][0-9]{0,19})%s" % END, Number.Integer),
            (r"([:=;])([ \t]*)(%s)%s(?=[ \t]*\()" % (NAME, END), bygroups(Punctuation, Whitespace, Name.Class)),
            (r"%s%s(?=[ \t]*\()" % (NAME, END), Name.Constant),
            (r"%s%s" % (NAME, END), Name.Variable),
            (r"[(){}<>,:=;]", Punctuation),
            (r"[a-z0-9_#/.]+|.", Error),
        ],
        "text": [
            (r'"', String.Double, "#pop"),
            (r'\\["\\n]', String.Escape),
            (r"\\.|[\x00-\x09\x0b-\x1f\x7f]", Error),
            (r'[^"\\\x00-\x1f\x7f]+', String.Double),
            (r"(?=\n)", Whitespace, "#pop"),
        ],
    }
