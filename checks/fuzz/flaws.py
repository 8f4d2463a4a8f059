"""What is wrong with a line that isn't one of a script, by the forms that a line may have (docs/FORMATS.md, "Scripts"):
the first word that fits none of the forms which all words before it fit. `told(script, line)` is the line that
`lnlink sim` writes to the standard error."""
import model

# literal words are in lower case; each other word names what is to stand there
FORMS = [form.split(" ") for form in """\
set NODE fees 64 64 64
set NODE limits 64 16 64 64
set NODE policy 32 32 16
height NODE HEIGHT
expect NODE PAYMENT 64
open CHANNEL NODE NODE 64 64
ready CHANNEL NODE NODE 64 64 ID
hook END count
hook END above 64 LAWFUL
hook END hold 64
dispatch END
down END
restart NODE
reload END
up CHANNEL
confirm END ID
add END 64 32 PAYMENT
fulfil END 64 PAYMENT
fail END 64 CODE
malformed END 64 CODE
fee END 32
sign END
shutdown END
deliver END
take END
decide END
resume END 64 continue
resume END 64 fail LAWFUL""".split("\n")]
HOP = ["ID", "64", "32"]
ROUND = ("stop-before", "stop-after", "no-memory")
CHOICES = {"set": "setting", "hook": "hook", "resume": "verdict"}
KINDS = {
    "NODE": ("node", model.node),
    "CHANNEL": ("channel", lambda word: model.number(word, 99)),
    "END": ("end", model.end),
    "64": ("number of 64 bits", model.number),
    "32": ("number of 32 bits", lambda word: model.number(word, 2**32 - 1)),
    "16": ("number of 16 bits", lambda word: model.number(word, 2**16 - 1)),
    "PAYMENT": ("payment", lambda word: model.number(word, 255)),
    "HEIGHT": ("block height", lambda word: model.number(word, 400000000)),
    "ID": ("short channel id", model.short_id),
    "CODE": ("code", model.code),
    "LAWFUL": ("failure code", model.lawful_code),
}


def fits(kind, word):
    if kind not in KINDS:
        return kind == word
    try:
        KINDS[kind][1](word)
    except model.Bad:
        return False
    return True


def wrong(what, word):
    return f"{what}: {word}" if word else "a blank too many"


def flaw(line):
    """The first flaw of a bad line, with its word."""
    head, words, forms = "command", line.split(" "), FORMS
    if words[0] in ROUND:
        head, words, forms = "act", words[1:], [form for form in FORMS if form[0] in model.ACTS]
    if not words:
        return f"missing {head}"
    if words[0] == "add":
        forms = [["add", "END", "64", "32", "PAYMENT"] + HOP * ((len(words) - 3) // 3)]
    for place, word in enumerate(words):
        left = [form for form in forms if len(form) > place]
        if not left:
            return wrong("one word too many", word)
        forms = [form for form in left if fits(form[place], word)]
        if not forms:
            name = KINDS[left[0][place]][0] if left[0][place] in KINDS else CHOICES[words[0]] if place else head
            return wrong(f"no such {name}", word)
    left = [form for form in forms if len(form) > len(words)]
    if len(left) == len(forms):
        kind = left[0][len(words)]
        return f"missing {KINDS[kind][0] if kind in KINDS else CHOICES[words[0]]}"
    return "fees out of order" if words[0] == "set" else "no room in an onion"


def told(script, line):
    return f"line {line}: {flaw(script.split(chr(10))[line - 1])} (refused 64 BadScript)\n"
