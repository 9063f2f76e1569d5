"""The layout of a shared output, whose data begin at 0 of a base that the loader chooses."""

from inputs import PAGE
from layout import Layout, rounded_up


class SharedLayout(Layout):
    def data_begin(self):
        return 0

    def place_stack_and_heap(self):
        """Neither is there; the pages are the least ones that hold the data."""
        self.pages = rounded_up(self.data_end, PAGE) // PAGE

    def made_address(self, place):
        """The one linker-made datum stands where data begin."""
        return 0

    def alignment(self):
        """The greatest one of live segments, as a power of two."""
        return max((self.objects[one.input].infos[one.place].align for one in self.addresses), default=0)
