"""Random images to be stripped, joined and sealed, the same for each seed.

Those of a pair are made to share contents and one host, or to clash in masks, in areas and in what they carry.
"""
from images import header, page, platform, spelled
from named_files import Huge
from operation_cases import IS_LARGE, areas, at, inserts
from random_hosts import LAUNCHED, SEV_LAUNCHED, SNP, HostMaker, ImageMaker
from random_images import CARRIED, INITIAL, Maker, WholeMaker
from records import FIXED_SIZES, LARGE, PAGE

KINDS = (*LAUNCHED, *SEV_LAUNCHED)


class ManyMaker(WholeMaker):
    """One random image that breaks no rule, of so many platforms and areas, and few other headers."""

    def __init__(self, chance, platforms, areas=2):
        super().__init__(chance)
        self.counts = platforms, areas

    def mask(self):
        """Often one that has bits of no platform."""
        return self.chance.choice((super().mask(), self.chance.getrandbits(32), 1 << self.chance.randrange(32)))

    def kinds(self):
        chance, (platforms, areas) = self.chance, self.counts
        kinds = [0x001] * platforms + chance.choices(INITIAL, k=chance.randrange(3)) + [0x301] * areas
        kinds += chance.choices((0x302, 0x302, 0x303, 0x304, 0x305, 0x309, 0x30B, 0x311), k=chance.randrange(8))
        for _ in range(chance.randrange(3)):
            kinds.insert(chance.choice((0, chance.randint(0, len(kinds)))), chance.choice(CARRIED))
        return kinds


class SharingMaker(ImageMaker):
    """One that fits a host, whose data are like those of others, and which carries headers of each class."""

    def __init__(self, chance, host, kind, data, wrong=()):
        super().__init__(chance, host, kind, wrong)
        self.data = data

    def policies(self):
        """With what relocates, now and then, and what is carried unread."""
        made = [*super().policies(), *(header(self.chance.choice((0x102, 0x103, *CARRIED)), self.some())
                                       for _ in range(self.chance.randrange(3)))]
        self.chance.shuffle(made)
        return made

    def some(self):
        return self.chance.randbytes(self.chance.choice((0, 3, 8, 24)))


class SealedMaker(SharingMaker):
    """One that mostly has an ID block."""

    right = {**SharingMaker.right, "id_block": 6}


# Images

def any_image(chance):
    """One that breaks no rule and knows of no host."""
    few = ManyMaker(chance, chance.choice((1, 2, 3, 5)), chance.choice((0, 1, 3)))
    return chance.choice((Maker(chance, 0), WholeMaker(chance), few, few)).image()


def shared_data(chance):
    return b"".join(chance.choice((chance.randbytes(PAGE), bytes(PAGE))) for _ in range(3))


def of_host(chance, host, data):
    """One that fits this host for a platform, or doesn't."""
    kind = chance.choice(KINDS)
    wrong = chance.choice(((), (), (), ("wrong_digest",) if kind == SNP else (), ("wrong_address",)))
    return SharingMaker(chance, host, kind, data, wrong).image()


def broken(chance):
    """One that is cut or has another byte, or a random one that mostly breaks a rule, or none at all."""
    image = any_image(chance)
    at = chance.randrange(chance.choice((32, len(image))))
    return chance.choice((image[:at], image[:at] + chance.randbytes(1) + image[at + 1:], Maker(chance, 0.1).image(),
                          Maker(chance, 0.1).image()))


def past_the_data(chance):
    """One whose large pages have too much data, of the same place."""
    front = [platform(), platform(2, chance.choice((3, 4)))]
    large = [at(0, page, LARGE * k, flags=IS_LARGE) for k in range(513)]
    return spelled([*front, *large], [chance.randbytes(PAGE) * 512], chance.choice(tuple(FIXED_SIZES)))


# What is handed to an operation: an image and a host's text, or two of them

def one(chance):
    """Mostly an image that fits the host."""
    host = HostMaker(chance)
    make = chance.choice((lambda: of_host(chance, host, shared_data(chance)), lambda: any_image(chance)))
    return make(), host.text()


def one_to_seal(chance):
    """One with ID blocks, mostly, that fits the host but for their digests."""
    host = HostMaker(chance)
    wrong = chance.choice(((), (), ("wrong_digest",), ("wrong_id_block",)))
    image = SealedMaker(chance, host, SNP, shared_data(chance), wrong).image()
    return chance.choice((image, image, image, WholeMaker(chance).image())), host.text()


def one_of_many(chance):
    return ManyMaker(chance, chance.choice((8, 16, 31, 32))).image(), HostMaker(chance).text()


def broken_one(chance):
    return broken(chance), HostMaker(chance).text()


def too_much(chance):
    return past_the_data(chance), HostMaker(chance).text()


def pair(chance):
    """Two that know of no host."""
    return any_image(chance), any_image(chance), HostMaker(chance).text()


def fitting_pair(chance):
    """Two for one host, often of the same data."""
    host, data = HostMaker(chance), shared_data(chance)
    other = chance.choice((data, data, data[PAGE:], shared_data(chance)))
    return of_host(chance, host, data), of_host(chance, host, other), host.text()


def with_itself(chance):
    image, text = one(chance)
    return image, image, text


def broken_pair(chance):
    """Two of which one breaks a rule, or both do."""
    first, second = chance.choice(((broken, any_image), (any_image, broken), (broken, broken)))
    return first(chance), second(chance), HostMaker(chance).text()


def too_long_pair(chance):
    """Two of which one is longer than is read."""
    files = [Huge(), chance.choice((any_image, broken))(chance)]
    chance.shuffle(files)
    return *files, HostMaker(chance).text()


def too_much_pair(chance):
    makers = [past_the_data, chance.choice((any_image, broken))]
    chance.shuffle(makers)
    return *(make(chance) for make in makers), HostMaker(chance).text()


def around(chance, most):
    """Two counts that are as much together, mostly, or one more or less."""
    first = chance.choice((1, most // 2, most - 1, chance.randint(1, most - 1), chance.randint(1, most - 1)))
    return first, max(1, most - first + chance.choice((-1, 0, 0, 0, 1)))


def many_platforms(chance):
    """Two with about as many platforms as one may have."""
    return *(ManyMaker(chance, count).image() for count in around(chance, 32)), HostMaker(chance).text()


def many_areas(chance):
    """Two with about as many areas as one may have."""
    return *(ManyMaker(chance, 2, count).image() for count in around(chance, 256)), HostMaker(chance).text()


def many_pages(chance):
    """Two that name about as many pages as one may."""
    return *(of_inserts(chance, count) for count in around(chance, 256)), HostMaker(chance).text()


def past_two(chance):
    """Two with too many areas, and too many platforms or pages."""
    make = chance.choice((lambda: ManyMaker(chance, chance.randint(17, 32), chance.randint(129, 256)).image(),
                          lambda: of_inserts(chance, chance.randint(129, 256), chance.randint(128, 255))))
    return make(), make(), HostMaker(chance).text()


def of_inserts(chance, count, others=0):
    """One of so many inserts that count on no platform, so many more areas, and mostly few other headers."""
    parts = [platform(1 << bit, chance.choice(KINDS)) for bit in chance.sample(range(32), 2)]
    parts += [*inserts(count, chance.choice((0, 7)), mask=0), *areas(others, 1000)]
    if count < 256:
        parts += chance.choice(([], [], [page(0)], [page(LARGE * k, 0, IS_LARGE) for k in range(32)]))
    return spelled(parts, version=chance.choice(tuple(FIXED_SIZES)))
