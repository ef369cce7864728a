"""Random pairs of a component list and an ELF file, with a mask, the same for each seed."""
from components import PAGES_MOST
from elf_cases import elf, list_of
from elves import judged
from list_cases import HUGE, LEAST, area, insert, named, pages
from named_files import Huge
from random_elves import broken, broken_twice, many_pages, many_segments, sound
from random_lists import AREA_MOST, TOP, FormMaker, ListMaker, TextMaker
from records import LARGE, PAGE

INSERTED, IN_LARGE = AREA_MOST // PAGE, LARGE // PAGE   # pages of an insert of the largest area, and of a large page


def some_mask(chance):
    return chance.choice((0, 1, 1, 2, 3, 4, 7, TOP, TOP, 1 << chance.randrange(32), chance.getrandbits(32)))


def right_list(chance):
    maker = ListMaker(chance, 0)
    return maker.text(maker.whole())


def other_list(chance):
    """A list that is wrong somewhere, or might be."""
    make = chance.choice((lambda chance: ListMaker(chance, chance.choice((0.02, 0.1))), FormMaker, TextMaker))
    maker = make(chance)
    return maker.text(maker.whole())


def sound_file(chance):
    return chance.choice((sound, sound, sound, sound, many_segments))(chance)


def any_file(chance):
    return chance.choice((sound, broken, broken_twice))(chance)


# Pairs

def fitting(chance):
    return right_list(chance), sound_file(chance), some_mask(chance)


def with_file(make):
    """A maker of pairs with files of this maker."""
    return lambda chance: (right_list(chance), make(chance), some_mask(chance))


def with_list(text):
    """A maker of pairs with this list."""
    return lambda chance: (text, any_file(chance), some_mask(chance))


def with_wrong_list(chance):
    return other_list(chance), any_file(chance), some_mask(chance)


def with_most_pages(chance):
    """A file of as many pages as there may be, behind a short list."""
    version, directives = chance.choice((1, 2)), chance.choice(([], [named(0x5000, "page")]))
    return list_of(*directives, version=version), many_pages(chance), some_mask(chance)


def crowded(chance):
    """A list that names all pages that there may be, or nearly all, and a file with about as many as are left."""
    file = sound_file(chance)
    (_, found), _ = judged(file)
    count = PAGES_MOST - len(found) + chance.choice((-1, 0, 0, 0, 1, 1, len(found)))
    inserts = chance.choice((0, 200, 255, 255, 255))
    large, small = divmod(count - inserts * INSERTED, IN_LARGE)
    entries = [*[insert(0, 0)] * inserts, pages(0, large, large=True), *([pages(0, small)] if small else [])]
    chance.shuffle(entries)
    return list_of(area(0, AREA_MOST), *entries, version=chance.choice((1, 2))), file, some_mask(chance)


def too_long_file(chance):
    return LEAST, Huge(), some_mask(chance)


def too_long_blob(chance):
    return list_of(named(0, HUGE)), any_file(chance), some_mask(chance)


def past_the_image(chance):
    """Contents for which an image has room, and a file with pages for which it then has none."""
    sizes = [AREA_MOST] * 7 + [AREA_MOST - 2 * PAGE]
    areas = (area(index, size, file=f"byte {index}") for index, size in enumerate(sizes))
    filled = chance.randbytes(2 * PAGE)
    return list_of(*areas, version=chance.choice((1, 2))), elf([(1, 120, 0, 2 * PAGE, 2 * PAGE)], size=120) + filled, 1
