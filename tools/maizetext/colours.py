"""Colours that tell nets apart."""

import colorsys

BY_HAND = ("#0072b2", "#d55e00", "#009e73", "#cc79a7", "#8c564b", "#56b4e9", "#7b3fa0", "#b8860b")
GOLDEN_ANGLE = 137.508


def net_colour(net: int) -> str:
    """The colour of a net by its index: the first by hand, the others by hues that lie far apart."""
    if net < len(BY_HAND):
        return BY_HAND[net]
    hue = net * GOLDEN_ANGLE % 360 / 360
    light = (0.36, 0.48, 0.60)[net % 3]
    red, green, blue = colorsys.hls_to_rgb(hue, light, 0.75)
    return f"#{round(red * 255):02x}{round(green * 255):02x}{round(blue * 255):02x}"
