"""The few forms that the pictures are drawn with. Numbers are rounded, so that a picture is the same text on every machine."""
import colorsys
import html

INK, GREY = "#222", "#666"


def number(x):
    return f"{x:.1f}".removesuffix(".0")


def colour(hue, light):
    """A colour of the circle, 0 to 1, dark or light."""
    red, green, blue = colorsys.hls_to_rgb(hue % 1, light, 0.62)
    return "#" + "".join(f"{round(part * 255):02x}" for part in (red, green, blue))


def element(name, inside=None, **attributes):
    words = "".join(f' {key.replace("_", "-")}="{number(value) if isinstance(value, (int, float)) else value}"' for key, value in attributes.items())
    return f"<{name}{words}/>" if inside is None else f"<{name}{words}>{inside}</{name}>"


def text(x, y, words, size=12, anchor="middle", fill=INK, **more):
    return element("text", html.escape(words), x=x, y=y, font_size=size, text_anchor=anchor, fill=fill, **more)


def box(x, y, width, height, fill="none", stroke="none", **more):
    return element("rect", x=x, y=y, width=width, height=height, fill=fill, stroke=stroke, **more)


def line(x1, y1, x2, y2, stroke=GREY, **more):
    return element("line", x1=x1, y1=y1, x2=x2, y2=y2, stroke=stroke, **more)


def picture(width, height, title, parts):
    """The whole file: white paper, one font, a form to a line."""
    head = (f'<svg xmlns="http://www.w3.org/2000/svg" viewBox="0 0 {number(width)} {number(height)}" width="{number(width)}" height="{number(height)}"'
            ' font-family="sans-serif">')
    return "\n".join([head, element("title", html.escape(title)), box(0, 0, width, height, "white"), *parts, "</svg>"]) + "\n"
