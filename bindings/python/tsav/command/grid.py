"""Small tables of text."""


def grid(rows, left: int = 1) -> list:
    """A line for each row of cells, all of one number: the first ones left-justified, the others right-justified."""
    widths = [max(map(len, cells)) for cells in zip(*rows)]
    return [
        "  ".join(f"{cell:{'<' if at < left else '>'}{width}}" for at, (cell, width) in enumerate(zip(row, widths))).rstrip()
        for row in rows
    ]
