#!/usr/bin/env python3
"""Makes a new save image, place by place and apart from the program.

Headers, descriptors, trees and tables are those of docs/FORMAT.md; level four's header and information are laid out as
in crates/save_samples, and with 64 8 8 each kind has the bytes of the sample there.

The root is its only directory, and all data blocks but those of its own two tables are free. A block that the
filesystem does not need was never written: its entry in the hash tree is zeros. With --filled each free block has
pseudo-random bytes, and every block is written.

With --tree, for a single, there are a directory /a, which is directory 2, and a file /a/x, which is file 1 and has the
three bytes xyz in the first data block behind the tables. With --holes, for a single, there is a file /u, which is file
1 and has 1,000 bytes in two data blocks that were never written: those numbered 18 and 19 behind the tables.

Usage: checks/make_image.py KIND BLOCKS DIRECTORIES FILES OUT [--filled | --tree | --holes]
KIND is single or dual, a DISA of one or two partitions, or vsxe, a DIFF. BLOCKS of 512 bytes are free, but for those of
a file.
"""
import hashlib
import struct
import sys

KINDS = ('single', 'dual', 'vsxe')
LONGEST = 67_108_864
SECTOR = 512
PAGE = 4096
ENTRY = 32
FLAG = 0x8000_0000
# The places of a descriptor's parts, and the offset of a level in IVFC and in DPFS by its number.
IVFC, DPFS, MASTER = 0x44, 0xBC, 0x10C
IVFC_LEVELS = {1: 0x10, 2: 0x28, 3: 0x40, 4: 0x58}
DPFS_LEVELS = {1: 0x08, 2: 0x20, 3: 0x38}
IVFC_LOGS = {1: 9, 2: 9, 3: 12, 4: 12}
DPFS_LOGS = {1: 0, 2: 7, 3: 12}


def count_of(size: int, step: int) -> int:
    """How many steps cover the size."""
    return -(-size // step)


def raised(size: int, step: int) -> int:
    """The next multiple of the step."""
    return count_of(size, step) * step


def put_u32(data: bytearray, at: int, *numbers: int) -> None:
    struct.pack_into(f'<{len(numbers)}I', data, at, *numbers)


def put_u64(data: bytearray, at: int, *numbers: int) -> None:
    struct.pack_into(f'<{len(numbers)}Q', data, at, *numbers)


def put_name(data: bytearray, at: int, name: bytes, version: int) -> None:
    data[at:at + 4] = name
    put_u32(data, at + 4, version)


def put_level(data: bytearray, at: int, place: tuple, log: int) -> None:
    """A level's place, a pair of its offset and its size, and the logarithm of its block size."""
    put_u64(data, at, *place)
    put_u32(data, at + 16, log)


def bucket(parent: int, name: bytes, buckets: int) -> int:
    """The bucket of a parent and a name."""
    hashed = parent ^ 0x091A_2B3C
    for word in struct.unpack('<4I', name.ljust(16, b'\0')):
        hashed = (hashed >> 1 | (hashed & 1) << 31) ^ word
    return hashed % buckets


def noise(size: int) -> bytes:
    """The same pseudo-random bytes at each call."""
    return hashlib.shake_128(b'noise').digest(size)


class Filesystem:
    """The places in part 0's level four."""

    def __init__(self, kind: str, blocks: int, directories: int, files: int) -> None:
        self.kind, self.directories, self.files = kind, directories, files
        self.directory_buckets, self.file_buckets = (max(3, most | 1) for most in (directories, files))
        self.most_directories, self.most_files = directories + 2, files + 1
        directory_bytes, file_bytes = 0x28 * self.most_directories, 0x30 * self.most_files
        self.directory_blocks, self.file_blocks = (
            (0, 0) if kind == 'dual' else (count_of(directory_bytes, SECTOR), count_of(file_bytes, SECTOR))
        )
        self.blocks = blocks + self.directory_blocks + self.file_blocks
        self.information = 0x138 if kind == 'vsxe' else 0x20
        self.buckets = self.information + 0x68
        self.other_buckets = self.buckets + 4 * self.directory_buckets
        self.allocation = self.other_buckets + 4 * self.file_buckets
        end = self.allocation + 8 * (self.blocks + 1)
        if kind == 'dual':
            self.region = 0
            self.directory_table = end
            self.file_table = end + directory_bytes
            self.written = self.size = self.file_table + file_bytes
        else:
            self.region = self.directory_table = raised(end, SECTOR)
            self.file_table = self.region + SECTOR * self.directory_blocks
            self.written = self.file_table + SECTOR * self.file_blocks
            self.size = self.region + SECTOR * self.blocks

    def contents(self, image_length: int) -> bytearray:
        """Level four, in which the free blocks are zeros."""
        level = bytearray(self.size)
        if self.kind == 'vsxe':
            put_name(level, 0, b'VSXE', 0x30000)
        else:
            put_name(level, 0, b'SAVE', 0x40000)
        put_u64(level, 0x08, self.information, image_length // SECTOR)
        put_u32(level, 0x18, SECTOR)
        self.put_information(level)
        self.put_allocation(level)
        # The root's entry is zeros, and it stands in the bucket of parent 0 and of a name of 16 zero bytes.
        put_u32(level, self.buckets + 4 * bucket(0, b'', self.directory_buckets), 1)
        put_u32(level, self.directory_table, 2, self.most_directories)
        put_u32(level, self.file_table, 1, self.most_files)
        return level

    def put_information(self, level: bytearray) -> None:
        at = self.information
        put_u32(level, at + 0x04, SECTOR)
        put_u64(level, at + 0x08, self.buckets)
        put_u32(level, at + 0x10, self.directory_buckets)
        put_u64(level, at + 0x18, self.other_buckets)
        put_u32(level, at + 0x20, self.file_buckets)
        put_u64(level, at + 0x28, self.allocation)
        put_u32(level, at + 0x30, self.blocks)
        put_u64(level, at + 0x38, self.region)
        put_u32(level, at + 0x40, self.blocks)
        if self.kind == 'dual':
            put_u64(level, at + 0x48, self.directory_table)
            put_u64(level, at + 0x58, self.file_table)
        else:
            put_u32(level, at + 0x48, 0, self.directory_blocks)
            put_u32(level, at + 0x58, self.directory_blocks, self.file_blocks)
        put_u32(level, at + 0x50, self.directories)
        put_u32(level, at + 0x60, self.files)

    def put_allocation(self, level: bytearray) -> None:
        first_free = 1
        for blocks in (self.directory_blocks, self.file_blocks):
            if blocks:
                self.put_node(level, first_free, first_free + blocks - 1, FLAG)
                first_free += blocks
        put_u32(level, self.allocation + 4, first_free)
        self.put_node(level, first_free, self.blocks, 0)

    def put_tree(self, level: bytearray) -> None:
        """The directory /a and the file /a/x. The tables have the data blocks before the file's."""
        block = self.directory_blocks + self.file_blocks
        put_u32(level, self.directory_table, 3)
        root, entry = self.directory_table + 0x28, self.directory_table + 2 * 0x28
        put_u32(level, root + 0x18, 2)
        put_u32(level, entry, 1)
        level[entry + 4:entry + 5] = b'a'
        put_u32(level, entry + 0x1C, 1)
        put_u32(level, self.buckets + 4 * bucket(1, b'a', self.directory_buckets), 2)
        self.put_file(level, 2, b'x', block, 3)
        at = self.region + SECTOR * block
        level[at:at + 3] = b'xyz'
        put_u32(level, self.allocation + 4, block + 2)
        self.put_node(level, block + 1, block + 1, FLAG)
        self.put_node(level, block + 2, self.blocks, 0)

    def put_holes(self, level: bytearray) -> None:
        """The file /u over two data blocks, and a free node before them and one behind."""
        free = self.directory_blocks + self.file_blocks + 1
        first, behind = free + 18, free + 20
        put_u32(level, self.directory_table + 0x28 + 0x1C, 1)
        self.put_file(level, 1, b'u', first - 1, 1000)
        self.put_node(level, first, behind - 1, FLAG)
        self.put_node(level, free, first - 1, 0, after=behind)
        self.put_node(level, behind, self.blocks, 0, before=free)

    def put_file(self, level: bytearray, parent: int, name: bytes, block: int, size: int) -> None:
        """File 1, which is the only one."""
        entry = self.file_table + 0x30
        put_u32(level, self.file_table, 2)
        put_u32(level, entry, parent)
        level[entry + 4:entry + 4 + len(name)] = name
        put_u32(level, entry + 0x1C, block)
        put_u64(level, entry + 0x20, size)
        put_u32(level, self.other_buckets + 4 * bucket(parent, name, self.file_buckets), 1)

    def put_node(self, level: bytearray, first: int, last: int, flag: int, before: int = 0, after: int = 0) -> None:
        """A node of these entries, and the first entries of its neighbours in the list."""
        put_u32(level, self.allocation + 8 * first, flag | before, (FLAG if first < last else 0) | after)
        if first < last:
            for entry in (first + 1, last):
                put_u32(level, self.allocation + 8 * entry, FLAG | first, last)


class Partition:
    """The places in a partition. A place is a pair of an offset and a size."""

    def __init__(self, level_four: int, is_external: bool) -> None:
        self.is_external = is_external
        sizes = {4: level_four}
        for level in (3, 2, 1, 0):
            sizes[level] = ENTRY * count_of(sizes[level + 1], 1 << IVFC_LOGS[level + 1])
        self.master = sizes[0]
        # The hash levels in DPFS level 3, where an external level four has no place.
        self.levels = {}
        end = 0
        for level in (1, 2, 3) if is_external else (1, 2, 3, 4):
            at = raised(end, PAGE)
            self.levels[level] = (at, sizes[level])
            end = at + sizes[level]
        copy = raised(end, PAGE)
        bits = {2: raised(count_of(copy // PAGE, 8), 128)}
        bits[1] = raised(count_of(bits[2] // 128, 8), 4)
        self.copies = {}
        end = 0
        for level, size in ((1, bits[1]), (2, bits[2]), (3, copy)):
            at = raised(end, PAGE)
            self.copies[level] = (at, size)
            end = at + 2 * size
        self.external = raised(end, PAGE) if is_external else 0
        if is_external:
            self.levels[4] = (0, level_four)
            end = self.external + level_four
        self.size = raised(end, PAGE)
        self.descriptor = MASTER + self.master

    def place(self, level: int) -> int:
        """Where a hash level begins in the partition, while all bits are 0."""
        if level == 4 and self.is_external:
            return self.external
        return self.copies[3][0] + self.levels[level][0]

    def hashed(self, level_four: bytes, written: int) -> dict:
        """All hash levels, 0 being the master hash, where each block is written that has one of the first so many bytes
        of level four."""
        contents = {4: level_four}
        blocks = count_of(written, 1 << IVFC_LOGS[4])
        for level in (4, 3, 2, 1):
            step = 1 << IVFC_LOGS[level]
            above = bytearray(self.levels[level - 1][1] if level > 1 else self.master)
            for block in range(blocks):
                data = contents[level][step * block:step * (block + 1)].ljust(step, b'\0')
                above[ENTRY * block:ENTRY * (block + 1)] = hashlib.sha256(data).digest()
            contents[level - 1] = above
            if level > 1:
                blocks = count_of(ENTRY * blocks, 1 << IVFC_LOGS[level - 1])
        return contents

    def described(self, master: bytes) -> bytearray:
        """The descriptor."""
        data = bytearray(self.descriptor)
        put_name(data, 0, b'DIFI', 0x10000)
        put_u64(data, 0x08, IVFC, 0x78, DPFS, 0x50, MASTER, self.master)
        data[0x38] = int(self.is_external)
        put_u64(data, 0x3C, self.external)
        put_name(data, IVFC, b'IVFC', 0x20000)
        put_u64(data, IVFC + 0x08, self.master)
        for level, at in IVFC_LEVELS.items():
            put_level(data, IVFC + at, self.levels[level], IVFC_LOGS[level])
        put_u64(data, IVFC + 0x70, 0x78)
        put_name(data, DPFS, b'DPFS', 0x10000)
        for level, at in DPFS_LEVELS.items():
            put_level(data, DPFS + at, self.copies[level], DPFS_LOGS[level])
        data[MASTER:] = master
        return data


class Image:
    """The places in an image."""

    def __init__(self, kind: str, blocks: int, directories: int, files: int, table_size: int = 0) -> None:
        """A table has at least `table_size` bytes; what follows the descriptors is zeros."""
        if kind not in KINDS or blocks < 1 or directories < 0 or files < 0:
            raise ValueError('no such image')
        self.kind = kind
        self.filesystem = Filesystem(kind, blocks, directories, files)
        self.partitions = [Partition(self.filesystem.size, False)]
        if kind == 'dual':
            self.partitions.append(Partition(SECTOR * blocks, True))
        self.descriptors = []
        end = 0
        for partition in self.partitions:
            at = raised(end, 8)
            self.descriptors.append((at, partition.descriptor))
            end = at + partition.descriptor
        self.table_size = max(end, table_size)
        self.secondary = SECTOR
        self.primary = raised(self.secondary + self.table_size, SECTOR)
        self.bodies = []
        end = self.primary + self.table_size
        for partition in self.partitions:
            at = raised(end, PAGE)
            self.bodies.append((at, partition.size))
            end = at + partition.size
        self.length = end

    def contents(self, is_filled: bool = False, held: str = '') -> bytearray:
        """The image; held is --tree or --holes, where it holds a file."""
        if self.length > LONGEST:
            raise ValueError(f'the image would have {self.length:,} bytes, and {LONGEST:,} are the most')
        level_fours = [(self.filesystem.contents(self.length), self.filesystem.written)]
        if held == '--tree':
            self.filesystem.put_tree(level_fours[0][0])
            level_fours[0] = (level_fours[0][0], self.filesystem.written + SECTOR)
        elif held == '--holes':
            self.filesystem.put_holes(level_fours[0][0])
        if self.kind == 'dual':
            level_fours.append((bytearray(self.partitions[1].levels[4][1]), 0))
        if is_filled:
            free, written = level_fours[-1]
            free[written:] = noise(len(free) - written)
            level_fours[-1] = (free, len(free))
        image = bytearray(self.length)
        for index, (level_four, written) in enumerate(level_fours):
            self.put_partition(image, index, self.partitions[index].hashed(level_four, written))
        header = bytearray(256)
        table = image[self.primary:self.primary + self.table_size]
        if self.kind == 'vsxe':
            self.put_diff(header, hashlib.sha256(table).digest())
        else:
            self.put_disa(header, hashlib.sha256(table).digest())
        image[0x100:0x200] = header
        return image

    def put_partition(self, image: bytearray, index: int, levels: dict) -> None:
        partition, body = self.partitions[index], self.bodies[index][0]
        for level in (1, 2, 3, 4):
            at = body + partition.place(level)
            image[at:at + len(levels[level])] = levels[level]
        at = self.primary + self.descriptors[index][0]
        image[at:at + partition.descriptor] = partition.described(levels[0])

    def put_disa(self, header: bytearray, digest: bytes) -> None:
        put_name(header, 0, b'DISA', 0x40000)
        put_u32(header, 0x08, len(self.partitions))
        put_u64(header, 0x10, self.secondary, self.primary, self.table_size)
        for index, (descriptor, body) in enumerate(zip(self.descriptors, self.bodies)):
            put_u64(header, 0x28 + 16 * index, *descriptor)
            put_u64(header, 0x48 + 16 * index, *body)
        header[0x6C:0x8C] = digest

    def put_diff(self, header: bytearray, digest: bytes) -> None:
        put_name(header, 0, b'DIFF', 0x30000)
        put_u64(header, 0x08, self.secondary, self.primary, self.table_size)
        put_u64(header, 0x20, *self.bodies[0])
        header[0x34:0x54] = digest

    def block(self, image: bytes, part: int, level: int, block: int) -> bytes:
        """The bytes that are hashed for a block of a hash level, while all bits are 0."""
        partition = self.partitions[part]
        step = 1 << IVFC_LOGS[level]
        at = self.bodies[part][0] + partition.place(level)
        end = min(at + step * (block + 1), at + partition.levels[level][1])
        return bytes(image[at + step * block:end]).ljust(step, b'\0')

    def hash_path(self, image: bytes, part: int, block: int) -> list:
        """The blocks that are hashed for a block of level four, from level 1 to level 4."""
        numbers = {4: block}
        for level in (3, 2, 1):
            numbers[level] = ENTRY * numbers[level + 1] >> IVFC_LOGS[level]
        return [self.block(image, part, level, numbers[level]) for level in (1, 2, 3, 4)]


def main() -> None:
    words = [word for word in sys.argv[1:] if not word.startswith('--')]
    added = [word for word in sys.argv[1:] if word.startswith('--')]
    if len(words) != 5 or words[0] not in KINDS or not all(word.isdigit() for word in words[1:4]):
        sys.exit(__doc__)
    if added not in ([], ['--filled']) and (words[0] != 'single' or added not in (['--tree'], ['--holes'])):
        sys.exit(__doc__)
    held = ''.join(added).removeprefix('--filled')
    least = {'': 0, '--tree': 2, '--holes': 21}[held]
    try:
        if held and (int(words[1]) < least or int(words[2]) < 1 or int(words[3]) < 1):
            raise ValueError(f'a single with {held} has at least {least} blocks, a directory and a file')
        image = Image(words[0], *map(int, words[1:4])).contents('--filled' in added, held)
    except ValueError as error:
        sys.exit(f'make_image: {error}')
    with open(words[4], 'wb') as file:
        file.write(image)


if __name__ == '__main__':
    main()
