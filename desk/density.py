"""Where the features of a layer lie that are too many to be drawn: how many there are in each cell of a window."""
import numpy

import places

ACROSS = 40  # cells of a window


def cells(its, box):
    """The cells of a window that have features, as west, south, east, north and about how many. Of an index the pages
    are taken, each of which has features close together, spread evenly over its bounds."""
    west, south, east, north = box
    size = max(east - west, north - south) / ACROSS
    if not size > 0:
        return []
    shape = int(numpy.ceil((north - south) / size)) or 1, int(numpy.ceil((east - west) / size)) or 1
    counts = numpy.zeros(shape)
    boxes, each = (its.pages, places.PER_PAGE) if isinstance(its, places.Index) else (its.boxes, 1)
    boxes = boxes[places.touching(boxes, *box)]
    low = numpy.clip(((boxes[:, :2] - (west, south)) / size).astype(int), 0, (shape[1] - 1, shape[0] - 1))
    high = numpy.clip(((boxes[:, 2:] - (west, south)) / size).astype(int), 0, (shape[1] - 1, shape[0] - 1))
    full = numpy.maximum((boxes[:, 2:] - boxes[:, :2]) / size, 1).prod(axis=1)
    for (x, y), (right, top), area in zip(low.tolist(), high.tolist(), full.tolist()):
        counts[y : top + 1, x : right + 1] += each / area
    rows, columns = numpy.nonzero(counts >= 0.5)
    corners = zip(columns.tolist(), rows.tolist(), counts[rows, columns].tolist())
    return [
        [west + x * size, south + y * size, west + (x + 1) * size, south + (y + 1) * size, round(it)]
        for x, y, it in corners
    ]
