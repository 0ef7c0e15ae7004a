"""What a picture shows, read from where its shapes stand."""
import xml.etree.ElementTree as ElementTree

SVG = "{http://www.w3.org/2000/svg}"


class Picture:
    """What a picture shows: its columns, and the rows of its lines."""

    def __init__(self, text):
        self.root = ElementTree.fromstring(text)
        self.drawn, = self.of_class("g", "columns")
        self.events = self.of_class("g", "event")
        self.crashes = self.of_class("g", "crash-line")
        self.rows = self.of_class("g", "line")
        self.lines = [int(line.get("data-line"), 16) for line in self.rows]
        self.bars = self.of_class("g", "store")
        self.middle = {int(event.get("data-event")): int(event.get("data-x")) for event in self.events}
        self.numbers = list(self.middle)

    def of_class(self, tag, name):
        return of_class(self.root, tag, name)

    def words(self):
        return " ".join(self.root.itertext())

    def state(self, store, line, number):
        """The state of a store's bar right after an event that is drawn; None where there is no bar."""
        x = self.middle[number] + 1
        found = {
            part.get("class")
            for bar in self.bars
            if int(bar.get("data-line"), 16) == line and int(bar.get("data-event")) <= store <= int(bar.get("data-last"))
            for part in bar.iter(SVG + "rect")
            if int(part.get("x")) <= x < int(part.get("x")) + int(part.get("width"))
        }
        assert len(found) <= 1, found
        return found.pop() if found and store <= number else None


def of_class(root, tag, name):
    return [found for found in root.iter(SVG + tag) if name in found.get("class", "").split()]


def title_of(element):
    return element.find(SVG + "title").text
