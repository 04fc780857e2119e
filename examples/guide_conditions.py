"""What the query texts of the guide's examples ask, written by hand as conditions of documents."""
from counting import utf8
from date_texts import moment


def has(field, value):
    return lambda d: value in d[field]


def within(field, low, high):
    """A value from low to high, both included."""
    return lambda d: any(low <= value <= high for value in d[field])


def since(field, low, high=None):
    """A date from low on and, where that is asked, before high."""
    return lambda d: any(moment(low) <= at and (high is None or at < moment(high)) for at in d[field])


def every(*conditions):
    return lambda d: all(condition(d) for condition in conditions)


def some(*conditions):
    return lambda d: any(condition(d) for condition in conditions)


def none(condition):
    return lambda d: not condition(d)


fox, elk, red, blue = has("brand", "fox"), has("brand", "elk"), has("color", "red"), has("color", "blue")
nine_o_clock = since("at", "2024-02-29T09:00:00Z", "2024-02-29T09:00:00.001Z")
five, twenty = has("price", 5), has("price", 20)
CONDITIONS = {
    "*:*": lambda d: True,
    "brand:fox": fox,
    'brand:"fox"': fox,
    "brand:elk": elk,
    "brand:zen": has("brand", "zen"),
    "color:*": lambda d: bool(d["color"]),
    "color:red": red,
    "color:blue": blue,
    "color:green": has("color", "green"),
    "price:[5 TO 12]": within("price", 5, 12),
    "price:{5 TO *]": within("price", 6, 10**20),
    "price:[10 TO *]": within("price", 10, 10**20),
    "price:[* TO 50]": within("price", -10**20, 50),
    "price:[* TO 12]": within("price", -10**20, 12),
    "n:[8 TO *]": within("n", 8, 10**20),
    "price:[12 TO 5]": lambda d: False,
    "-price:5": none(five),
    "-price:*": lambda d: not d["price"],
    "brand:{elk TO fox]": lambda d: any(utf8("elk") < utf8(value) <= utf8("fox") for value in d["brand"]),
    "brand:elk color:red": some(elk, red),
    "brand:elk OR color:red": some(elk, red),
    "brand:fox AND color:red": every(fox, red),
    "+brand:fox color:red": fox,
    "+brand:fox -color:red": every(fox, none(red)),
    "brand:fox AND NOT color:red": every(fox, none(red)),
    "-color:red": none(red),
    "brand:fox AND color:red price:20": every(fox, red),
    "brand:fox AND (color:blue OR price:[* TO 5])": every(fox, some(blue, within("price", -10**20, 5))),
    "NOT (color:red OR brand:elk)": none(some(red, elk)),
    "color:(red AND blue)": every(red, blue),
    "color:(red -blue)": every(red, none(blue)),
    "color:(red price:20)": some(red, twenty),
    "kind:product": has("kind", "product"),
    "color:red brand:acme": some(red, has("brand", "acme")),
    "-id:2": none(has("id", "2")),
    "pen:north": has("pen", "north"),
    'at:"2024-02-29T09:00:00Z"': nine_o_clock,
    'at:"2024-02-29T09:00:00.000999Z"': nine_o_clock,
    r"at:2024-02-29T09\:00\:00Z": nine_o_clock,
    "at:[2024-02-29T00:00:00Z TO 2024-03-01T00:00:00Z}": since("at", "2024-02-29T00:00:00Z", "2024-03-01T00:00:00Z"),
    "at:{2024-02-28T23:59:59.999Z TO *]": since("at", "2024-02-29T00:00:00Z"),
    'seen:["2024-03-01T00:00:00Z" TO *]': since("seen", "2024-03-01T00:00:00Z"),
    "-at:*": lambda d: not d["at"],
}
