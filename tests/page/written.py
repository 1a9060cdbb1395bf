"""What is told of the page by its files alone: sizes, sentences, contrast, nothing from elsewhere."""
import re

from wanted import need

MOST_BYTES = 120_000
PAIRS = (("ink", "page"), ("ink", "surface"), ("ink", "raised"), ("ink", "mark"), ("quiet", "page"), ("quiet", "surface"), ("quiet", "raised"))
PAIRS += (("accent", "page"), ("accent", "surface"), ("accent", "mark"), ("quiet", "mark"), ("on-accent", "accent"), ("bad", "page"), ("bad", "surface"))
LEAST_CONTRAST = 4.5


def sizes(stage):
    """At most 120 kB in all, names that can be served, nothing from another host, no markup made from texts."""
    files = [it for it in stage.web.iterdir() if it.is_file()]
    need(sum(it.stat().st_size for it in files) <= MOST_BYTES, f"{sum(it.stat().st_size for it in files)} bytes")
    for file in files:
        need(re.fullmatch(r"[a-z0-9.-]+\.(html|js|css|svg|png|ico|json|webmanifest)", file.name), f"{file.name} can't be served")
        text = file.read_text().replace("http://www.w3.org/2000/svg", "")
        for word in ("http://", "https://", "innerHTML", "outerHTML", "insertAdjacentHTML", "document.write", "eval(", "style=", 'setAttribute("style'):
            need(word not in text, f"{word} in {file.name}")


def sentences(stage):
    """Each refusal of docs/HTTP.md has a sentence, no other has one, and a sentence names what the refusal names."""
    told = {}
    for line in (stage.top / "docs/HTTP.md").read_text().splitlines():
        row = re.fullmatch(r"\| (\d\d?)(?:, [a-z ]+)? \| (.+) \| (.*?) ?\|", line)
        if row:
            told.setdefault(int(row[1]), set()).update(re.findall("`([a-z_]+)`", row[3]))
    source = (stage.web / "say.js").read_text()
    said = {int(number): set(re.findall(r"\{(\w+)\}", text)) - {"team"} for number, text in re.findall(r'^\s+(\d{1,2}): "(.*)",$', source, re.M)}
    need(set(said) == set(told), f"sentences for others: {sorted(set(said) ^ set(told))}")
    for number, names in said.items():
        need(names <= told[number], f"the sentence of {number} names {names}, and the refusal {told[number]}")


def luminance(colour):
    parts = [int(colour[at : at + 2], 16) / 255 for at in (1, 3, 5)]
    linear = [it / 12.92 if it <= 0.03928 else ((it + 0.055) / 1.055) ** 2.4 for it in parts]
    return 0.2126 * linear[0] + 0.7152 * linear[1] + 0.0722 * linear[2]


def contrast(stage):
    """Texts stand out from what is behind them by 4.5 to 1, in both themes."""
    themes = [dict(re.findall(r"--([a-z-]+): (#[0-9a-f]{6});", block)) for block in re.findall(r":root \{(.*?)\n\s*\}", (stage.web / "style.css").read_text(), re.S)[:2]]
    light, dark = themes[0], {**themes[0], **themes[1]}
    for theme in (light, dark):
        for text, ground in PAIRS:
            one, other = sorted((luminance(theme[text]), luminance(theme[ground])))
            need((other + 0.05) / (one + 0.05) >= LEAST_CONTRAST, f"{text} on {ground}: {(other + 0.05) / (one + 0.05):.2f}")


WRITTEN = {play.__name__: play for play in (sizes, sentences, contrast)}
