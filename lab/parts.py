"""What pages are made of: escaped words, tables, marks, and a page that stands by itself."""
import html
import pathlib

STYLE = (pathlib.Path(__file__).resolve().parent / "page.css").read_text()


def escape(words):
    return html.escape(str(words), quote=True)


def chip(kind, words):
    """A small mark; a kind is good, off, bad, stated, fitted or assumed."""
    return f"<span class='chip {kind}'>{escape(words)}</span>"


def table(heads, rows, kind="", classes=()):
    """A table of cells that are HTML already; classes are those of columns, by place."""
    named = dict(classes)
    head = f"<tr>{''.join(f'<th>{word}</th>' for word in heads)}</tr>" if heads else ""
    lines = []
    for row in rows:
        cells = [
            f"<td class='{named[place]}'>{cell}</td>" if place in named else f"<td>{cell}</td>" for place, cell in enumerate(row)
        ]
        lines.append(f"<tr>{''.join(cells)}</tr>")
    return f"<div class='scroll'><table class='{kind}'>{head}{''.join(lines)}</table></div>"


def figures(drawings):
    """Drawings beside each other."""
    return f"<div class='plots'>{''.join(f'<figure>{drawn}</figure>' for drawn in drawings)}</div>"


def page(title, header, main):
    """The whole page: nothing in it is fetched."""
    meta = "<meta charset='utf-8'><meta name='viewport' content='width=device-width, initial-scale=1'>"
    head = f"<head>{meta}<title>{escape(title)}</title><style>{STYLE}</style></head>"
    body = f"<body><header><h1>{escape(title)}</h1>{header}</header><main>{main}</main></body>"
    return f"<!doctype html><html lang='en'>{head}{body}</html>\n"
