"""The words of requests and of commands: what each may be, by a grammar of its own, and words that are nearly one of these."""

import re

import calendars

CALENDARS = [name.encode() for name in calendars.CALENDARS]
UNITS = [b"years", b"months", b"weeks", b"days", b"none"]
OVERFLOWS = [b"constrain", b"reject", b"none"]
STRATEGIES = [b"reject", b"ecma", b"none"]
LEAPINGS = [b"exact", b"constrain"]
MISSINGS = [b"skip", b"constrain"]

# INT has an optional sign and 1 to 9 digits; BYTE has 1 to 3 digits and is at most 255.
INT = rb"-?[0-9]{1,9}"
BYTE = rb"(?:[01]?[0-9]{1,2}|2[0-4][0-9]|25[0-5])"
BYTES = rb"[^ \n]*"
CODE = rb"M[0-9]{2}L?"
FIELD = rb"|".join([
    *[rb"era=" + BYTES, rb"era-year=" + INT, rb"year=" + INT, rb"month=" + CODE, rb"month-code=" + BYTES],
    *[rb"ordinal=" + BYTE, rb"day=" + BYTE],
])
BAG = rb"((?: (?:" + FIELD + rb"))*)"


def one_of(words: list[bytes]) -> bytes:
    return rb"(" + rb"|".join(words) + rb")"


CALENDAR = one_of(CALENDARS)
OPTIONS = rb" ".join([one_of(UNITS), one_of(OVERFLOWS), one_of(STRATEGIES)])
REQUEST = re.compile(rb"span " + CALENDAR + rb" " + CALENDAR + rb" " + OPTIONS + rb" from" + BAG + rb" to" + BAG)

# The words behind the name of a command. Those of `recur` are followed by fields, and those of `rrule` by a start and a rule.
FORMS = {
    b"span": [],
    b"explain": [],
    b"gen": [rb"0?[0-9]{1,5}|100000"],
    b"anniversary": [CALENDAR, CALENDAR, one_of(LEAPINGS), CODE, BYTE, INT, INT],
    b"recur": [CALENDAR, CALENDAR, one_of(UNITS[:4]), rb"[0-9]{1,9}", one_of(MISSINGS), INT, INT],
    b"rrule": [CALENDAR, CALENDAR, INT, INT],
    b"holidays": [INT, INT],
    b"convert": [CALENDAR, CALENDAR, one_of(OVERFLOWS[:2])],
}

# What may stand as a word of a request, by its place: each word of the form, and near misses of some.
WORDS = {
    0: [b"span", b"spans", b"row"],
    1: [*CALENDARS, b"julia", b"Iso", b"islamic-type1"],
    2: [*CALENDARS, b"gregory", b"islamic", b"islamic-type2-friday", b""],
    3: [*UNITS, b"year", b"hours", b"Days"],
    4: [*OVERFLOWS, b"constrained", b"ecma"],
    5: [*STRATEGIES, b"ecm", b"constrain"],
}
# What may stand in a bag: fields of all keys, at the ends of what they take and past them.
FIELDS = [
    *[b"era=", b"era=ce", b"era=ad", b"era=bce", b"era=bc", b"era=default", b"era=ce=", b"era=\xc3\xa9", b"eras=ce", b"era"],
    *[b"era-year=1", b"era-year=-999999999", b"era-year=1000000000", b"era-year=1040001", b"era-year=+1", b"era_year=1"],
    *[b"year=0", b"year=-000000001", b"year=0000000001", b"year=999999", b"year=-", b"year=", b"year=--1", b"Year=1"],
    *[b"month=M00", b"month=M01", b"month=M02", b"month=M12", b"month=M13", b"month=M02L"],
    *[b"month=M1", b"month=M001", b"month=m01", b"month=M02l", b"month=2", b"month="],
    *[b"month-code=", b"month-code=M02", b"month-code=M02L", b"month-code=M13", b"month-code=M1", b"month-codes=M02"],
    *[b"ordinal=0", b"ordinal=2", b"ordinal=012", b"ordinal=13", b"ordinal=255", b"ordinal=256", b"ordinal=-1"],
    *[b"day=0", b"day=1", b"day=031", b"day=32", b"day=199", b"day=256", b"day=0001", b"day=", b"day=1d", b"days=1"],
    *[b"from", b"to", b""],
]

# What may stand as a word behind the name of a command, by its place, and what may stand anywhere.
SHOWN = [*CALENDARS, b"julia", b"Iso", b"iso ", b""]
DAYS = [b"-365242500", b"-365242499", b"365242134", b"365242135", b"-000000001", b"0000000001", b"999999999", b"-", b"+1", b"1\n"]
CODES = [b"M00", b"M01", b"M02", b"M05L", b"M12", b"M13", b"M99L", b"M1", b"m01", b"M02l", b"M001", b"2"]
# Any word is a rule: what is wrong with it is said in an answer. A rule that is valid ends at once, however far the start is from the window.
RULES = [b"FREQ=DAILY;COUNT=1", b"freq=weekly;byday=mo;count=1", b"FREQ=HOURLY", b"FREQ", b";", b"=", b"", b"\xc3\xa9", b"\xff", b"FREQ=DAILY\n", b"0"]
NEAR = {
    b"gen": [[b"0", b"007", b"100", b"0100000", b"100001", b"-1", b""]],
    b"anniversary": [SHOWN, SHOWN, [*LEAPINGS, b"skip"], CODES, [b"0", b"029", b"30", b"255", b"256", b"-1", b"0001"], DAYS, DAYS],
    b"recur": [SHOWN, SHOWN, [*UNITS, b"day"], [b"0", b"1", b"000000012", b"999999999", b"1000000000", b"-1", b""], MISSINGS, DAYS, DAYS],
    b"rrule": [SHOWN, SHOWN, DAYS, DAYS, [*DAYS, *FIELDS], [*FIELDS, *RULES]],
    b"holidays": [DAYS, DAYS],
    b"convert": [SHOWN, SHOWN, [*OVERFLOWS, b"skip", b""]],
    b"explain": [[b"holidays", b"holiday", b""]],
}
ANYWHERE = [
    *[b"span", b"explain", b"gen", b"anniversary", b"recur", b"rrule", b"holidays", b"convert", b"iso", b"exact", b"constrain", b"M02", b"1", b"-1", b"", b" "],
    *[b"day=1 month=M02", b"era=\n", b"era=\t", b"era=\xff", b"\xff", *FIELDS, *RULES],
]


def has_each_key_once(fields: list[bytes]) -> bool:
    keys = [field.split(b"=")[0] for field in fields]
    return len(set(keys)) == len(keys)


def are_fields(words: list[bytes]) -> bool:
    return all(re.fullmatch(FIELD, word) for word in words) and has_each_key_once(words)


def is_text(word: bytes) -> bool:
    """Whether the word is UTF-8, as each word of a command must be."""
    return word == word.decode(errors="ignore").encode()


def is_command(words: list[bytes]) -> bool:
    """Whether these are the words of a command line that the program takes."""
    if not words or words[0] not in FORMS or not all(map(is_text, words)):
        return False
    form, given = FORMS[words[0]], words[1:]
    fixed, others = given[: len(form)], given[len(form) :]
    return len(fixed) == len(form) and all(map(re.fullmatch, form, fixed)) and is_end(words[0], others)


def is_end(command: bytes, words: list[bytes]) -> bool:
    """Whether a command may end with these words, behind those of its form."""
    if command == b"recur":
        return are_fields(words)
    if command == b"rrule":
        return bool(words) and (are_fields(words[:-1]) or is_day(words[:-1]))
    return not words or (command == b"explain" and words == [b"holidays"])


def is_day(words: list[bytes]) -> bool:
    return len(words) == 1 and bool(re.fullmatch(INT, words[0]))


def begins_command(words: list[bytes]) -> bool:
    """Whether some words of a command begin with these."""
    if not words:
        return True
    if words[0] not in FORMS:
        return False
    form, given = FORMS[words[0]], words[1:]
    fixed, others = given[: len(form)], given[len(form) :]
    if not all(map(re.fullmatch, form, fixed)):
        return False
    # Behind the form, words that others may follow are an end, too: the last one may be the rule.
    return not others or is_end(words[0], others)


def first_bad_word(words: list[bytes]) -> int:
    """The number of the first word, from 1, with which no command goes on. It is one more than the words if they end too early."""
    return next((n for n in range(1, len(words) + 1) if not begins_command(words[:n])), len(words) + 1)
