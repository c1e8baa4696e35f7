"""What is said of a line at which a definition is at fault."""
import re

import definitions

FAULTS = {
    "Line": "this line is cut, has another shape than a definition's, or may not stand here",
    "Name": "{} can't be a name",
    "Limit": "there are too many controls, units or wires",
    "Twice": "the name {} is given already",
    "Number": "{} is no number",
    "Unit": "there is no unit {}",
    "Input": "{} is neither a number nor a name from above",
    "Index": "the number of a bus or a buffer can't be the wire {}",
    "Constant": "{} is not a number that may stand here",
}
SPACES = {
    r"[ \t]": "no line of a definition is indented",
    r".*[ \t]$": "a space or a tab stands at the end of this line",
    r".*  ": "two spaces stand together in this line",
    r".*\t": "a tab stands in this line",
}
RANGE = "a raw number is from -2147483648 to 2147483647, and a sample from -128.0 to below 128.0"
MEASURED = "; a frequency is written `440Hz`, and a time `20ms`"


def written(word, line, text):
    """A word of a line with raw numbers, as it stands in the text."""
    return dict(zip(line.split(" "), text.split(" "))).get(word, word)


def several(count, most, word):
    """How many there may be."""
    return f"{count} to {most} {word}s" if most > count else f"{count} {word}" + "s" * (count != 1)


def counted(text):
    """How many inputs and outputs a unit has, and how many its line has."""
    fields = text.split(" ")
    place = fields.index("=") if "=" in fields else 0
    unit, *given = fields[place + 1:] if place else fields
    inputs, outputs = definitions.UNITS[unit]
    least, most = (1, 8) if outputs == "+" else (outputs, outputs)
    takes = several(len(inputs), len(inputs) + 7 * inputs.endswith("+"), "input")
    return f"{unit} takes {takes} and gives {several(least, most, 'output')}; here are {len(given)} and {place}"


def number(word):
    """What is wrong with a word that is nearly a number, or None."""
    if found := re.fullmatch(r"(-?)(\.[0-9]+)", word):
        return f"write {found[1]}0{found[2]}, and not {word}"
    if re.fullmatch(r"0|-?[1-9][0-9]*|-?(0|[1-9][0-9]*)\.[0-9]{1,8}|-?[0-9.]+[A-Za-z]+", word):
        return f"{word} is out of range: {RANGE}" + (MEASURED if re.fullmatch(r"-?[0-9]+\.[0-9]+", word) else "")
    return None


def why(kind, word, text):
    """What is wrong with a line of a definition, by the kind of its fault and the word that is at fault."""
    if kind == "Count":
        return counted(text)
    if kind == "Line":
        return next((reason for form, reason in SPACES.items() if re.match(form, text)), FAULTS[kind])
    if kind == "Unit" and "=" in text and "=" not in text.split(" "):
        return "a space stands before and after `=`"
    reason = number(word) if kind in ("Number", "Input") else None
    return reason or FAULTS[kind].format(word)
