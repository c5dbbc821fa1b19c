"""Random rules in C, with the typical parts of rules: stages, versions, flags, days, texts, quotas,
counters, switches, points and arithmetic.

They have no loop that isn't unrolled, no table read at a variable index, no signed operation, and
no result that C leaves undefined. A rule depends only on its seed.

A grammar writes the rule: for each $word it draws one of the word's forms by weight, and then
writes the words in that form in turn.
"""
import random
import re

ARRAYS = "taken:64:4:3,seen:64:16,majors:32:8"
FLAGS = ["VERSION_KNOWN", "UPDATECHECK", "PING", "EVENT", "COHORT_KNOWN", "INSTALLDATE_KNOWN"]
# The most times that a form may contain its own word, one in the other.
DEEPEST = 2
WORD = re.compile(r"\$(\w+)")


def alike(*forms):
    """Forms of equal weight."""
    return {str(form): 1 for form in forms}


GRAMMAR = {
    "rule": alike(
        "$wide low = 0;\n$wide high = 0;\n$type choice = $choice;\n"
        "low = $number;\nhigh = $number;\n$statements$end\n"
    ),
    "number": {
        "app->bucket": 14,
        "app->version[$place]": 16,
        "(app->today - app->installed)": 6,
        "app->second": 4,
        "(app->flags & $mask)": 6,
        "(app->flags >> $shift & $few)": 4,
        "bucket_of($salt)": 4,
        "attr_len($text)": 3,
        "($number + $small)": 6,
        "($number & $mask)": 4,
        "($number >> $shift)": 4,
        "($number ^ $number)": 3,
        "($number - $small)": 4,
        "($number % $divisor)": 4,
        "($number / $divisor)": 4,
        "($number * $factor)": 3,
        "($condition ? $number : $number)": 3,
        "__builtin_bswap32(app->version[$place])": 1,
        "TWO(app->version[0], app->version[1])": 2,
    },
    "value": {"$number": 12, "low": 1, "high": 1},
    "condition": {
        "($condition && $condition)": 16,
        "($condition || $condition)": 10,
        "!($condition)": 4,
        "app->bucket $relation $limit": 12,
        "app->version[$place] $relation $major": 10,
        "(app->flags & $flag)": 6,
        "(app->flags & (PING | $flag)) == (PING | $flag)": 2,
        "TWO(app->version[0], app->version[1]) $order TWO($major, $small)": 4,
        "app->today $relation $day": 4,
        "(int32_t)(app->today - app->installed) $relation $age": 4,
        'ATTR_IS($text, "$literal")': 4,
        "TAKE(0, $place, 3)": 3,
        "bucket_of($salt) < $limit": 3,
        "app->second / 3600 $relation $hour": 3,
        "$value $relation $edge": 15,
    },
    "statement": {
        "if ($condition)\nreturn $choice;\n": 43,
        "if ($condition) {\n$statement$statement}\n": 6,
        "if ($condition) {\n$statement} else {\n$statement}\n": 10,
        "if ($condition)\n$assign\n": 8,
        "choice = $condition ? $choice : $choice;\n": 6,
        "low = $number;\n": 4,
        "high = $number;\n": 3,
        "switch ($key) {\n$cases default: break;\n}\n": 6,
        "{\nconst uint16_t below[3] = {$limits};\n$loop}\n": 6,
        "{\nuint64_t *seen = lookup(MAP(1), $key);\n$counted}\n": 5,
        "{\nuint32_t *count = lookup(MAP(2), app->version[0] & 7);\n"
        "if (!count)\nreturn $choice;\n*count += 1;\n}\n": 3,
    },
    "cases": alike(
        "case 0: $arm case 1: $arm",
        "case 1: $arm case 3: $arm case 7: $arm",
        "case 0: $arm case 1: $arm case 2: $arm case 3: $arm case 5: $arm",
        "case 0: case 2: $arm case 4: $arm case 6: $arm",
    ),
    "arm": {
        "return $choice;\n": 10,
        "choice = $choice; break;\n": 5,
        "if ($condition) return $choice;\nbreak;\n": 3,
        "$assign\n": 2,
    },
    "loop": alike(
        "UNROLL\nfor (int i = 0; i < 3; i++)\nif (app->bucket < below[i])\nreturn $choice;\n",
        "UNROLL\nfor (int i = 0; i < 3; i++)\nif (app->bucket < below[i] && app->version[i] > 2)\n"
        "return i % $kinds;\n",
    ),
    "counted": alike(
        "if (seen) {\n__sync_fetch_and_add(seen, 1);\nif (*seen > $few)\nreturn $choice;\n}\n",
        "if (!seen)\nreturn $choice;\n*seen += 1;\n",
    ),
    "key": alike("app->bucket & $mask", "app->version[0]", "app->version[1]", "app->second >> 13"),
    "limits": alike("10, 100, 1000", "50, 500, 2500", "100, 2500, 7500", "250, 5000, 9000"),
    "relation": alike("<", "<=", ">", ">=", "<", ">=", "==", "!="),
    "order": alike("<", ">="),
    "flag": alike(*FLAGS),
    "text": alike("VERSION", "BRAND", "AP", "LANG", "PLATFORM"),
    "literal": alike("de", "GGLS", "beta", "win", "x64-stable", "pt-BR", "1.0", "2.10"),
    "place": alike(0, 0, 1, 2, 3),
    "small": alike(1, 2, 3, 4, 5, 7, 8),
    "few": alike(1, 3),
    "mask": alike(1, 3, 7, 15, 31, 63, 255),
    "shift": alike(1, 2, 4, 8, 13),
    "divisor": alike("2u", "3u", "4u", "5u", "7u", "8u", "10u", "60u", "100u", "2500u", "3600u"),
    "factor": alike("2u", "3u", "10u", "51u", "100u"),
    "limit": alike(5, 50, 100, 500, 1000, 2500, 5000, 7500, 9000),
    "major": alike(0, 1, 2, 3, 4, 10, 17, 90),
    "day": alike(6900, 7000, 7273),
    "age": alike(-1, 0, 7, 30),
    "hour": alike(6, 8, 12, 18),
    "edge": alike(0, 1, 2, 3, 5, 10, 50, 100, 500),
    "salt": alike(9, 77, 20261124, 99999999),
    "wide": alike("uint32_t", "uint64_t"),
    "unsigned": alike("uint32_t", "uint64_t", "uint8_t"),
}

# The kinds of rules: the type of the choice, its assignments, and how the rule ends.
CHOICES = {
    "type": alike("int", "uint32_t", "uint64_t", "uint8_t"),
    "assign": alike("choice = $choice;"),
    "end": {
        "return choice;": 10,
        "return $number % $kinds;": 1,
        "$wide last = $number;\nreturn last > $most ? $most : last;": 1,
    },
}
POINTS = {
    "type": alike("$unsigned"),
    "assign": alike("choice = $choice;", "choice += $choice;", "choice -= $choice;"),
    "end": alike("return choice > $most ? 0 : choice;", "return choice > $most ? $most : choice;"),
}
SIGNED_POINTS = POINTS | {
    "type": alike("int"),
    "end": alike(
        "return choice < 0 || choice > $most ? 0 : choice;",
        "return choice < 0 ? 0 : choice > $most ? $most : choice;",
    ),
}


class Writer:
    """Writes a text by a grammar."""

    def __init__(self, draw, grammar):
        self.draw, self.grammar = draw, grammar
        self.open = []

    def word(self, word):
        """A random form of the word, written out."""
        forms = self.grammar[word]
        if self.open.count(word) >= DEEPEST:
            forms = {form: of for form, of in forms.items() if word not in WORD.findall(form)}
        self.open.append(word)
        drawn = self.draw.choices(list(forms), list(forms.values()))[0]
        written = WORD.sub(lambda found: self.word(found[1]), drawn)
        self.open.pop()
        return written


def random_rule(name, seed):
    """The text of a rule."""
    draw = random.Random(seed)
    most = draw.choice([1, 2, 2, 3, 3, 4])
    kind = draw.choices([CHOICES, POINTS, SIGNED_POINTS], [65, 25, 10])[0]
    choices = {"most": alike(most), "kinds": alike(f"{most + 1}u")}
    choices["choice"] = alike(*range(most + 1))
    choices["statements"] = alike(*("$statement" * count for count in range(3, 8)))
    written = Writer(draw, GRAMMAR | kind | choices).word("rule")
    return f'RULE({name}, {most}, "{ARRAYS}") {{\n{written}}}\n'
