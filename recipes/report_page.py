"""HTML for a report: elements in which nothing of a message is markup, and the page around them. No script, and nothing from elsewhere."""
import html

# The style of the page.
STYLE = """
:root{--paper:#fff;--ink:#1b1f24;--soft:#57606a;--line:#d0d7de;--box:#f6f8fa;--bad:#b3001b;--badbox:#ffeef0;--must:#8a4b00;--mustbox:#ffd9a0;
--may:#0a5a8a;--maybox:#cfe8fa;--good:#116329;color-scheme:light dark}
@media screen and (prefers-color-scheme:dark){:root{--paper:#0d1117;--ink:#e6edf3;--soft:#9aa4af;--line:#3a424b;--box:#161b22;--bad:#ff8a80;--badbox:#3a1214;
--must:#ffc680;--mustbox:#5a3a08;--may:#8fd0ff;--maybox:#11395a;--good:#7ee787}}
*{box-sizing:border-box}
body{margin:0 auto;padding:1rem;max-width:64rem;background:var(--paper);color:var(--ink);font:1rem/1.5 system-ui,"DejaVu Sans",sans-serif;overflow-wrap:anywhere}
h1{font-size:1.5rem;margin:.2rem 0}h2{font-size:1.25rem;margin:2rem 0 .5rem;border-top:2px solid var(--line);padding-top:1rem}
h3{font-size:1.05rem;margin:1.6rem 0 .3rem}h4{font-size:1rem;margin:1rem 0 .2rem}
.bad{color:var(--bad);font-weight:700}.good{color:var(--good);font-weight:700}.note{color:var(--soft);font-size:.9rem}
.say{border-left:.35rem solid var(--bad);background:var(--badbox);padding:.6rem .8rem;margin:.8rem 0;font-size:1.05rem}
table{border-collapse:collapse;width:100%}th,td{text-align:left;vertical-align:top;padding:.2rem .5rem;border-bottom:1px solid var(--line)}
td.n{text-align:right}th,td.n,td:first-child{white-space:nowrap}
code,pre{font-family:ui-monospace,"DejaVu Sans Mono",monospace;font-size:.86rem}pre{font-size:.8rem}
pre{background:var(--box);border:1px solid var(--line);border-radius:.4rem;padding:.5rem .7rem;white-space:pre-wrap;margin:.3rem 0 1rem}
a{color:var(--may)}:target{outline:3px solid var(--may)}.scroll{overflow-x:auto}ul,ol{margin:.2rem 0 .6rem;padding-left:1.3rem}
figure{margin:.6rem 0}figcaption{font-size:.9rem;color:var(--soft)}
svg{display:block;height:auto}svg text{font:12px "DejaVu Sans",system-ui,sans-serif;fill:var(--ink)}svg .soft{fill:var(--soft);font-size:11px}
svg .life{stroke:var(--soft);stroke-width:1.5}svg .own{stroke:var(--ink);stroke-width:1.8}svg .ownhead{fill:var(--ink)}
svg .other{stroke:var(--soft);stroke-dasharray:2 4}svg .otherhead{fill:var(--soft)}svg .badline,svg .cross{stroke:var(--bad);stroke-width:2.4}svg .badhead{fill:var(--bad)}
svg text.badtext{fill:var(--bad);font-weight:700}svg .must{fill:var(--mustbox);stroke:var(--must);stroke-width:1.5}
svg .may{fill:var(--maybox);stroke:var(--may);stroke-width:1.5;stroke-dasharray:4 2}svg .dots{stroke:var(--line);stroke-dasharray:1 4}
@media print{body{max-width:none;padding:0;font-size:10pt}.scroll{overflow:visible}td:first-child{white-space:normal}section{break-before:page}figure,.say,tr,li{break-inside:avoid}a{color:inherit;text-decoration:none}pre{font-size:8pt}
svg{max-height:22cm;max-width:100%;width:auto}}
"""
# What a browser may load for the page: nothing but its own styles.
POLICY = "default-src 'none'; style-src 'unsafe-inline'; base-uri 'none'; form-action 'none'"


def shown(text, most=0):
    """A text as HTML: what cannot be printed is spelled, and nothing in it is markup. Where `most` is given, it has at most this many characters of the text."""
    text = text if isinstance(text, str) else text.decode("latin-1")
    # Up to U+024F are the letters of western languages; what comes after them, marks that turn a text among them, is spelled by its number.
    text = "".join(sign if sign in "\n\t" or sign.isprintable() and ord(sign) < 0x250 else "\\x%02x" % ord(sign) for sign in text)
    return html.escape(text[:most - 2] + ".." if most and len(text) > most else text)


def tag(name, content="", **attributes):
    """An element of HTML with this content, which is HTML already, and these attributes, which are texts."""
    # A name of an attribute that python keeps for itself ends with an underline here, as `class_`, and any other underline stands for a hyphen.
    words = "".join(' %s="%s"' % (key.rstrip("_").replace("_", "-"), html.escape(str(value))) for key, value in attributes.items())
    return "<%s%s>%s</%s>" % (name, words, content, name)


def listed(texts, name="ul"):
    """A list of HTML with these items, which are HTML already."""
    return tag(name, "".join(tag("li", text) for text in texts)) if texts else ""


def table(heads, rows):
    """A table of HTML with these cells, which are HTML already. A number stands at the right of its cell."""
    head = tag("tr", "".join(tag("th", shown(text), scope="col") for text in heads))
    body = "".join(tag("tr", "".join(tag("td", str(cell), class_="n") if isinstance(cell, int) else tag("td", cell) for cell in row)) for row in rows)
    return tag("div", tag("table", tag("thead", head) + tag("tbody", body)), class_="scroll", tabindex="0", role="group", aria_label="table")


def page(title, body):
    """The whole page, which loads nothing from elsewhere."""
    head = ('<meta charset="utf-8"><meta name="viewport" content="width=device-width,initial-scale=1"><meta name="referrer" content="no-referrer">'
            '<meta http-equiv="Content-Security-Policy" content="%s">' % POLICY + tag("title", shown(title)) + tag("style", STYLE))
    return '<!DOCTYPE html>\n<html lang="en"><head>%s</head><body><main>%s</main></body></html>\n' % (head, body)
