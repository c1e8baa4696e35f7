"""BinaryOpUGen and UnaryOpUGen: a row for each operator, by its number in a definition."""
import math
from typing import Callable, NamedTuple, Optional

from . import functions, logarithms, random_numbers, ratios
from .functions import exponential_of, folded, to_both_sides, wrapped
from .further import has
from .generators import sine
from .graph import Wire
from .logarithms import logarithm_of
from .measures import Refused
from .templates import template


class Operator(NamedTuple):
    """Its name there, what builds it here of `a` and `b`, and its value for two constants.

    `further` builds it in place of `build` where what it `needs` is here, of the units that the server has got last.
    """

    name: str
    build: Optional[Callable] = None
    fold: Optional[Callable] = None
    needs: str = ""
    further: Optional[Callable] = None

    def best(self):
        """What builds it here, or None."""
        return self.further if self.further and has(*self.needs.split()) else self.build


def product(graph, a, b):
    return [mul_add(graph, a, b)]


def quotient(graph, a, b):
    if isinstance(b, Wire) or b == 0:
        raise Refused("division by a signal isn't there")
    return [mul_add(graph, a, 1 / b)]


def mul_add(graph, x, factor, addend=0.0):
    """`x * factor + addend`; times 1 it stays what it is."""
    if x == 1 or factor == 1:
        return graph.sum(factor if x == 1 else x, addend)
    return graph.product(x, factor, addend)


def squared(graph, a):
    return [graph.product(a, a)]


def cubed(graph, a):
    return [graph.product(graph.product(a, a), a)]


def ring(of_product):
    """Ring modulation, with more than the product: what `of_product` makes of it and the operands."""
    return lambda graph, a, b: [of_product(graph, graph.product(a, b), a, b)]


def difference(graph, a, b):
    return graph.sum(a, graph.product(b, -1.0))


def scaled_below(graph, a, b):
    """What is below 0, times b."""
    low, = LOWER(graph, a=a)
    return [graph.product(low, b, UPPER(graph, a=a)[0])]


def above(graph, a, b):
    """What is at least b, else 0."""
    less, = LESS_THAN(graph, a=a, b=b)
    return [graph.product(a, graph.product(less, -1.0, 1.0))]


def sum_squared(graph, a, b):
    return squared(graph, graph.sum(a, b))


def difference_squared(graph, a, b):
    return squared(graph, difference(graph, a, b))


def of_sine(offset):
    """A sine or a cosine of a signal: the phase of an oscillator that stands still."""
    return lambda graph, a: sine(graph, 0.0, graph.sum(a, offset))


def tangent(graph, a):
    return [ratios.divided(graph, of_sine(0.0)(graph, a)[0], of_sine(math.pi / 2)(graph, a)[0])]


def truth(compare):
    return lambda a, b: 1.0 if compare(a, b) else 0.0


POWERS = "Div Exp2 Log2"
LOWER, UPPER = template("Min a:M 0:M -> M"), template("Max a:M 0:M -> M")
LESS_THAN = template("Lt a:M b:M -> sample")
LESS = "less = Lt a:M b:M -> sample"
MORE = "more = Gt a:M b:M -> sample"
OTHER = "other = Add less:sample more:sample -> sample"

BINARY = {
    0: Operator("+", lambda graph, a, b: [graph.sum(a, b)], lambda a, b: a + b),
    1: Operator("-", template("Sub a:M b:M -> M"), lambda a, b: a - b),
    2: Operator("*", product, lambda a, b: a * b),
    4: Operator("/", quotient, lambda a, b: a / b, "Div", ratios.quotient),
    6: Operator("==", template(LESS, MORE, OTHER, "Sub 1:sample other:sample -> sample"), truth(lambda a, b: a == b)),
    7: Operator("!=", template(LESS, MORE, OTHER), truth(lambda a, b: a != b)),
    8: Operator("<", template(LESS), truth(lambda a, b: a < b)),
    9: Operator(">", template(MORE), truth(lambda a, b: a > b)),
    10: Operator("<=", template(MORE, "Sub 1:sample more:sample -> sample"), truth(lambda a, b: a <= b)),
    11: Operator(">=", template(LESS, "Sub 1:sample less:sample -> sample"), truth(lambda a, b: a >= b)),
    12: Operator("min", template("Min a:M b:M -> M"), min),
    13: Operator("max", template("Max a:M b:M -> M"), max),
    5: Operator("mod", functions.remainder, lambda a, b: a - b * math.floor(a / b) if b else 0.0, "Mod",
                ratios.remainder),
    19: Operator("round", functions.rounded, lambda a, b: math.floor(a / b + 0.5) * b if b else a, "Mod",
                 ratios.rounded),
    20: Operator("roundUp", functions.rounded_up, lambda a, b: math.ceil(a / b) * b if b else a, "Mod",
                 ratios.rounded_up),
    21: Operator("trunc", functions.truncated, lambda a, b: math.floor(a / b) * b if b else a, "Mod", ratios.truncated),
    23: Operator("hypot", None, math.hypot, POWERS, logarithms.distance),
    25: Operator("pow", functions.power, lambda a, b: math.copysign(abs(a) ** b, a), POWERS, logarithms.power),
    30: Operator("ring1", ring(lambda graph, p, a, b: graph.sum(p, a)), lambda a, b: a * b + a),
    31: Operator("ring2", ring(lambda graph, p, a, b: graph.sum(graph.sum(p, a), b)), lambda a, b: a * b + a + b),
    32: Operator("ring3", ring(lambda graph, p, a, b: graph.product(p, a)), lambda a, b: a * a * b),
    33: Operator("ring4", ring(lambda graph, p, a, b: graph.product(p, difference(graph, a, b))),
                 lambda a, b: a * a * b - a * b * b),
    34: Operator("difsqr", lambda graph, a, b: [difference(graph, graph.product(a, a), graph.product(b, b))],
                 lambda a, b: a * a - b * b),
    35: Operator("sumsqr", lambda graph, a, b: [graph.product(a, a, graph.product(b, b))], lambda a, b: a * a + b * b),
    36: Operator("sqrsum", sum_squared, lambda a, b: (a + b) ** 2),
    37: Operator("sqrdif", difference_squared, lambda a, b: (a - b) ** 2),
    38: Operator("absdif", template("d = Sub a:M b:M -> M", "Abs d:M -> M"), lambda a, b: abs(a - b)),
    39: Operator("thresh", above, lambda a, b: 0.0 if a < b else a),
    40: Operator("amclip", lambda graph, a, b: [graph.product(a, UPPER(graph, a=b)[0])], lambda a, b: a * max(b, 0.0)),
    41: Operator("scaleneg", scaled_below, lambda a, b: a if a >= 0 else a * b),
    42: Operator("clip2", template("low = Neg b:M -> M", "Clip a:M low:M b:M -> M"), lambda a, b: max(-b, min(a, b))),
    43: Operator("excess", template("low = Neg b:M -> M", "near = Clip a:M low:M b:M -> M", "Sub a:M near:M -> M"),
                 lambda a, b: a - max(-b, min(a, b))),
    44: Operator("fold2", to_both_sides(folded), lambda a, b: b - abs((a - b) % (4 * b) - 2 * b) if b else 0.0,
                 "Mod", ratios.to_both_sides(ratios.folded)),
    45: Operator("wrap2", to_both_sides(wrapped), lambda a, b: (a + b) % (2 * b) - b if b else 0.0, "Mod",
                 ratios.to_both_sides(ratios.wrapped)),
    46: Operator("firstArg", lambda graph, a, b: [a], lambda a, b: a),
    47: Operator("rrand", random_numbers.OPERATORS["rrand"]),
    48: Operator("exprand", random_numbers.OPERATORS["exprand"]),
}

UNARY = {
    0: Operator("neg", template("Neg a:M -> M"), lambda a: -a),
    1: Operator("not", template("more = Gt a:M 0:M -> sample", "Sub 1:sample more:sample -> sample"),
                lambda a: 0.0 if a > 0 else 1.0),
    5: Operator("abs", template("Abs a:M -> M"), abs),
    11: Operator("sign", template("more = Gt a:M 0:M -> sample", "less = Lt a:M 0:M -> sample",
                                  "Sub more:sample less:sample -> sample"), lambda a: float((a > 0) - (a < 0))),
    6: Operator("asFloat", lambda graph, a: [a], lambda a: a),
    8: Operator("ceil", lambda graph, a: functions.rounded_up(graph, a, 1.0), math.ceil, "Mod",
                ratios.by_one(ratios.rounded_up)),
    9: Operator("floor", lambda graph, a: functions.truncated(graph, a, 1.0), math.floor, "Mod",
                ratios.by_one(ratios.truncated)),
    10: Operator("frac", lambda graph, a: functions.remainder(graph, a, 1.0), lambda a: a - math.floor(a), "Mod",
                 ratios.by_one(ratios.remainder)),
    12: Operator("squared", squared, lambda a: a * a),
    13: Operator("cubed", cubed, lambda a: a * a * a),
    14: Operator("sqrt", None, lambda a: math.copysign(math.sqrt(abs(a)), a), POWERS, logarithms.root),
    15: Operator("exp", exponential_of(1.0, 1.0, -16.0, 4.8), math.exp, "Exp2",
                 logarithms.exponential_of(math.log2(math.e))),
    16: Operator("reciprocal", None, lambda a: 1 / a, "Div", ratios.reciprocal),
    17: Operator("midicps", exponential_of(math.log(2) / 12, 440 * 2 ** (-69 / 12), 0.0, 127.0),
                 lambda a: 440 * 2 ** ((a - 69) / 12), "Exp2", logarithms.exponential_of(1 / 12, 440.0, -69 / 12)),
    18: Operator("cpsmidi", None, lambda a: 69 + 12 * math.log2(a / 440), POWERS,
                 logarithm_of(12.0, 69 - 12 * math.log2(440))),
    19: Operator("midiratio", exponential_of(math.log(2) / 12, 1.0, -60.0, 60.0), lambda a: 2 ** (a / 12), "Exp2",
                 logarithms.exponential_of(1 / 12)),
    20: Operator("ratiomidi", None, lambda a: 12 * math.log2(a), POWERS, logarithm_of(12.0)),
    21: Operator("dbamp", exponential_of(math.log(10) / 20, 1.0, -100.0, 40.0), lambda a: 10 ** (a / 20), "Exp2",
                 logarithms.exponential_of(math.log2(10) / 20)),
    22: Operator("ampdb", None, lambda a: 20 * math.log10(a), POWERS, logarithm_of(20 * math.log10(2))),
    23: Operator("octcps", exponential_of(math.log(2), 440 * 2 ** -4.75, 0.0, 10.0), lambda a: 440 * 2 ** (a - 4.75),
                 "Exp2", logarithms.exponential_of(1.0, 440.0, -4.75)),
    24: Operator("cpsoct", None, lambda a: math.log2(a / 440) + 4.75, POWERS, logarithm_of(1.0, 4.75 - math.log2(440))),
    25: Operator("log", None, math.log, POWERS, logarithm_of(math.log(2))),
    26: Operator("log2", None, math.log2, POWERS, logarithm_of(1.0)),
    27: Operator("log10", None, math.log10, POWERS, logarithm_of(math.log10(2))),
    28: Operator("sin", of_sine(0.0), math.sin),
    29: Operator("cos", of_sine(math.pi / 2), math.cos),
    30: Operator("tan", None, math.tan, "Div", tangent),
    36: Operator("tanh", functions.tanh, math.tanh, "Div Exp2", logarithms.tanh),
    **{37 + number: Operator(name, random_numbers.OPERATORS[name])
       for number, name in enumerate(("rand", "rand2", "linrand", "bilinrand", "sum3rand"))},
    44: Operator("coin", random_numbers.OPERATORS["coin"]),
    42: Operator("distort", functions.distort, lambda a: a / (1 + abs(a)), "Div", ratios.distort),
    43: Operator("softclip", functions.softclip, lambda a: a if abs(a) <= 0.5 else (abs(a) - 0.25) / a, "Div",
                 ratios.softclip),
    48: Operator("rectWindow", functions.inside, lambda a: 1.0 if 0 <= a <= 1 else 0.0),
    49: Operator("hanWindow", functions.raised_cosine, lambda a: 0.5 - 0.5 * math.cos(math.tau * a)),
    50: Operator("welWindow", functions.half_sine, lambda a: math.sin(math.pi * a)),
    51: Operator("triWindow", functions.roof, lambda a: 1 - abs(2 * a - 1)),
    52: Operator("ramp", functions.limited, lambda a: min(1.0, max(0.0, a))),
    53: Operator("scurve", functions.s_curve, lambda a: min(1.0, max(0.0, a)) ** 2 * (3 - 2 * min(1.0, max(0.0, a)))),
}


def operate(table, graph, number, operands):
    """The outputs of an operator; of constants it is worked out."""
    found = table.get(number)
    if found is None:
        raise Refused(f"its operator {number} isn't there")
    if not any(isinstance(each, Wire) for each in operands):
        return [found.fold(*operands)]
    build = found.best()
    if build is None:
        raise Refused(f"{found.name} of a signal isn't there")
    return build(graph, **dict(zip("ab", operands)))
