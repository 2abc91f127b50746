#!/usr/bin/env python3
"""Draws the pictures of docs/, each one SVG that follows the reader's light or dark mode: `make.py [FOLDER]`. layers.svg is made of crates.txt."""
import itertools, os, random, sys
from html import escape

HERE = os.path.dirname(os.path.abspath(__file__))

STYLE = """<style>
svg { font: 14px sans-serif; }
.box { fill: #f4f6f8; stroke: #3a4a5a; stroke-width: 1.3; }
.soft { fill: none; stroke: #8a99a8; stroke-dasharray: 5 4; }
.line { stroke: #3a4a5a; stroke-width: 1.3; fill: none; marker-end: url(#tip); }
.bare { marker-end: none; }
.tip { fill: #3a4a5a; }
text { fill: #16202a; } .small { font-size: 12px; fill: #4a5a6a; }
@media (prefers-color-scheme: dark) {
.box { fill: #1d2731; stroke: #9fb1c2; } .soft { stroke: #667788; }
.line { stroke: #9fb1c2; } .tip { fill: #9fb1c2; }
text { fill: #e6edf3; } .small { fill: #a9bac9; }
}
</style>
<defs><marker id="tip" viewBox="0 0 10 10" refX="9" refY="5" markerWidth="7" markerHeight="7" orient="auto-start-reverse"><path class="tip" d="M0 0L10 5L0 10z"/></marker></defs>"""


class Picture:
    def __init__(self, name, title, width, height):
        self.name, self.width, self.parts = name, width, []
        self.head = (f'<svg xmlns="http://www.w3.org/2000/svg" viewBox="0 0 {width} {height}" role="img" aria-label="{escape(title)}">\n'
                     f'<title>{escape(title)}</title>\n{STYLE}')

    def text(self, x, y, words, kind='', anchor='middle'):
        self.parts.append(f'<text class="{kind}" x="{x}" y="{y}" text-anchor="{anchor}">{escape(words)}</text>')

    def box(self, x, y, w, h, *lines, kind='box'):
        self.parts.append(f'<rect class="{kind}" x="{x}" y="{y}" width="{w}" height="{h}" rx="6"/>')
        top = y + h / 2 + 5 - 9 * (len(lines) - 1)
        for i, words in enumerate(lines):
            self.text(x + w / 2, top + 18 * i, words, 'small' if i else '')

    def arrow(self, x1, y1, x2, y2, words='', at=None, anchor='middle'):
        self.parts.append(f'<path class="line" d="M{x1} {y1}L{x2} {y2}"/>')
        if words:
            x, y = at or ((x1 + x2) / 2, (y1 + y2) / 2 - 6)
            self.text(x, y, words, 'small', anchor)

    def path(self, way, tip=True):
        self.parts.append(f'<path class="{"line" if tip else "line bare"}" d="{way}"/>')

    def save(self):
        with open(os.path.join(sys.argv[1] if len(sys.argv) > 1 else HERE, self.name), 'w') as file:
            file.write(self.head + '\n' + '\n'.join(self.parts) + '\n</svg>\n')


def page_life():
    p = Picture('page-life.svg', "A page's life", 860, 400)
    p.box(30, 165, 150, 56, 'in no frame', 'on its disk, or blank')
    p.box(370, 70, 150, 56, 'home', 'in its frame, in use')
    p.box(370, 285, 150, 56, 'cached', 'home, to be had')
    p.box(680, 70, 150, 56, 'moving', 'its frame is away')
    p.box(680, 285, 150, 56, 'given up', 'its frame comes free', kind='soft')
    p.path('M105 165L105 36L755 36L755 68')
    p.text(430, 28, 'begin of a read: a free or cached frame is taken', 'small')
    p.arrow(180, 182, 368, 104, 'fill_zero, fill_from, copy', (262, 128), 'end')
    p.arrow(520, 88, 678, 88, 'begin of a push *', (599, 80))
    p.arrow(680, 110, 522, 110, 'end', (599, 127))
    p.arrow(425, 126, 425, 283, 'release', (417, 210), 'end')
    p.arrow(465, 285, 465, 128, 'reclaim', (473, 210), 'start')
    p.arrow(368, 313, 182, 213, 'its frame is taken', (268, 290), 'end')
    p.text(268, 306, 'for another page', 'small', 'end')
    p.arrow(520, 122, 678, 290, 'abort', (580, 220), 'end')
    p.arrow(520, 313, 678, 313, 'abort')
    p.arrow(755, 126, 755, 283, 'abort: at the end', (747, 184), 'end')
    p.text(747, 200, 'of its transfer', 'small', 'end')
    p.text(430, 368, '* where no frame is free or cached; else a copy of the page goes out, and the page stays home', 'small')
    p.text(430, 388, 'a read that fails ends in no frame; a push that fails ends home and modified', 'small')
    p.save()


def fault():
    p = Picture('fault.svg', 'A load or a store on its way', 830, 590)
    row = [(30, 96, 'load, store', 'address'), (146, 90, 'aligned?'), (256, 90, 'segment?'), (366, 100, 'protection?'),
           (486, 110, 'translation?', 'HAT, by hash'), (680, 130, 'word', 'of the frame')]
    for x, w, *lines in row:
        p.box(x, 30, w, 46, *lines)
    for (x, w, *_), (to, *_) in zip(row, row[1:5]):
        p.arrow(x + w, 53, to - 2, 53)
    p.arrow(596, 53, 678, 53, 'yes: a hit')
    for (x, w, *_), words in zip(row[1:4], ('no: BUS align', 'no: SEGV nomap', 'no: SEGV prot')):
        p.arrow(x + w / 2, 76, x + w / 2, 100)
        p.text(x + w / 2, 116, words, 'small')
    p.arrow(541, 76, 541, 128, 'none that lets it', (549, 107), 'start')
    p.box(471, 130, 140, 46, 'shows a page?', "the segment's driver")
    p.arrow(471, 153, 428, 153)
    p.text(422, 157, 'no: BUS past', 'small', 'end')
    p.arrow(541, 176, 541, 210, 'yes', (549, 198), 'start')
    p.box(471, 212, 140, 46, 'where is it?', 'by name: page hash')
    for x, w, *lines in [(30, 150, 'moving', 'with a seat'), (225, 150, 'on its disk', 'a file, or swap'),
                         (410, 150, 'blank', 'never written'), (650, 160, 'home', 'in a frame')]:
        p.box(x, 310, w, 46, *lines)
        p.arrow(541 + (x + w / 2 - 541) * 0.16, 258, x + w / 2, 308)
    p.arrow(730, 310, 730, 260)
    p.box(650, 190, 160, 68, 'translation loaded', 'a private store copies', "what it doesn't own alone")
    p.arrow(745, 190, 745, 78)
    p.box(225, 400, 335, 46, 'a frame to be had?', 'free, or cached, or the victim is clean')
    p.arrow(300, 356, 300, 398)
    p.arrow(485, 356, 485, 398)
    p.path('M560 423L730 423L730 358')
    p.text(645, 415, 'yes, blank: zeros', 'small')
    p.box(30, 490, 150, 46, 'wait for it', 'outside the lock')
    p.box(225, 490, 150, 46, 'read the page', 'outside the lock')
    p.box(410, 490, 150, 46, 'push the victim', 'outside the lock')
    p.arrow(105, 356, 105, 488)
    p.arrow(300, 446, 300, 488, 'yes, on its disk', (308, 472), 'start')
    p.arrow(485, 446, 485, 488, 'no: the victim is modified', (493, 472), 'start')
    p.path('M105 536L105 562', tip=False)
    p.path('M300 536L300 562', tip=False)
    p.path('M485 536L485 562L12 562L12 53L28 53')
    p.text(295, 582, 'the same call again, from its beginning; where the disk is out, once it is home', 'small')
    p.save()


def cell():
    p = Picture('cell.svg', 'A cell and what it shows', 820, 320)
    p.box(30, 60, 250, 160)
    p.text(155, 48, 'cell of a page of a process')
    for i, words in enumerate(['protection, at most', 'shared or private', 'object: file, zero object, new zeros', 'index: page of the object', 'own page, or none']):
        p.text(45, 92 + 28 * i, words, 'small', 'start')
    p.box(490, 30, 300, 56, 'own page', 'private copy, or private zero memory')
    p.box(490, 140, 300, 56, "object's page at the index", 'others see stores here')
    p.box(490, 240, 300, 56, 'nothing', 'a signal: BUS past', kind='soft')
    p.arrow(280, 100, 488, 58, 'has an own page', (376, 66))
    p.arrow(280, 156, 488, 167, 'has none', (376, 152))
    p.arrow(280, 205, 488, 266, 'has none, and its object', (352, 262))
    p.text(352, 278, 'ends before that page', 'small')
    p.arrow(640, 140, 640, 88, 'first private store copies', (650, 118), 'start')
    p.save()


def turn():
    p = Picture('turn.svg', "The lock's turn", 820, 260)
    p.box(30, 40, 170, 56, 'seat outside', 'note: what it has out')
    p.box(330, 40, 160, 56, 'seat inside', 'has the state')
    p.box(620, 40, 170, 56, 'refused', 'who had the turn')
    p.arrow(200, 60, 328, 60, 'enter', (264, 52))
    p.arrow(328, 82, 202, 82, 'leave', (264, 100))
    p.parts.append('<path class="line" d="M115 38C200 0 620 0 705 38"/>')
    p.text(410, 32, 'the turn word names another seat', 'small')
    steps = [(30, 'take the turn'), (190, 'state out'), (350, 'one event'), (510, 'tell length, note'), (670, 'state in, free')]
    for i, (x, words) in enumerate(steps):
        p.box(x, 160, 120, 44, words)
        if i:
            p.arrow(x - 40, 182, x - 2, 182)
    p.text(410, 240, 'one visit of the lock: each step is atomic, the event itself is the work of one holder', 'small')
    p.save()


def fork():
    p = Picture('fork.svg', 'One slot before and after a fork, and after the first store', 900, 300)
    # what is drawn: its title, what the translations of parent and child let, the slots of both, and the counts
    drawn = [('before', 'may write', None, (4, None), {4: 1}), ('after the fork', 'may read', 'none', (4, 4), {4: 2}),
             ('the child stores first', 'may read', 'may write', (4, 5), {4: 1, 5: 1}), ('or the parent does', 'may write', 'none', (5, 4), {4: 1, 5: 1})]
    for i, (title, *lets, slots, counts) in enumerate(drawn):
        x = 15 + 222 * i
        p.text(x + 101, 28, title)
        for j, (who, let, slot) in enumerate(zip(('parent', 'child'), lets, slots)):
            left = x + 106 * j
            if slot is None:
                continue
            p.box(left, 46, 96, 50, who, let)
            p.arrow(left + 48, 96, x + (48 if slot == 4 else 154), 158)
        for slot, count in counts.items():
            p.box(x + (0 if slot == 4 else 106), 160, 96, 50, f'slot {slot}', f'count {count}')
    p.text(450, 244, "in a process's box: what the translation of its page lets; a store that it doesn't let, or a page without one, comes to a fault", 'small')
    p.text(450, 264, 'the fault copies the page where the slot counts more than once; where it counts once the page is written in place', 'small')
    p.save()


def two_loads():
    p = Picture('two-loads.svg', 'One load by two callers', 900, 380)
    for y, words in [(50, 'process 1'), (130, 'the lock'), (210, 'the page'), (290, 'process 2')]:
        p.text(100, y + 28, words, '', 'end')
    for x, w, *lines in [(120, 110, 'try', 'the read begins'), (250, 280, 'reads from the disk', 'outside the lock'), (550, 90, 'end', 'Moved'), (660, 90, 'try', 'Done')]:
        p.box(x, 50, w, 46, *lines)
    for x, w, who in [(120, 110, 'has it: 1'), (300, 90, '2'), (550, 90, '1'), (660, 90, '1'), (790, 90, '2')]:
        p.box(x, 130, w, 46, who)
    p.arrow(165, 290, 165, 178)
    p.box(120, 210, 510, 46, 'moving with seat 0', 'its frame and its disk are out')
    p.box(650, 210, 230, 46, 'home')
    p.box(120, 290, 90, 46, 'refused', 'LockHeld')
    p.box(300, 290, 90, 46, 'try', 'PageBusy(0)')
    p.box(790, 290, 90, 46, 'try', 'Done')
    p.box(215, 290, 80, 46, 'rests', 'on leaves', kind='soft')
    p.box(400, 290, 380, 46, 'rests', 'on changes', kind='soft')
    for x, top, bottom in [(175, 96, 130), (595, 96, 130), (705, 96, 130)]:
        p.path(f'M{x} {top}L{x} {bottom}', tip=False)
    p.arrow(345, 290, 345, 258)
    p.arrow(835, 290, 835, 258)
    p.text(450, 366, 'from left to right in time; the end of the transfer tells who rests on changes', 'small')
    p.save()


def marks():
    p = Picture('marks.svg', 'What a block has, from push to push', 900, 350)
    for y, words in [(30, 'the page'), (105, 'its push'), (180, 'its block'), (255, 'its mark')]:
        p.text(92, y + 28, words, '', 'end')
    for x, w, *lines in [(110, 210, 'stored into', 'after 1 entry'), (330, 550, 'stored into again', 'after 2 entries')]:
        p.box(x, 30, w, 46, *lines)
    for x, w, *lines in [(220, 200, 'sends what was stored', 'began after 1 entry'), (520, 160, 'sends it again', 'began after 2')]:
        p.box(x, 105, w, 46, *lines)
    for x, w, kind, *lines in [(110, 100, 'box', 'as opened'), (220, 200, 'soft', 'being written', 'nothing is said'), (430, 80, 'box', 'as it was', 'after 1'),
                               (520, 160, 'soft', 'being written', 'nothing is said'), (690, 190, 'box', 'as it was', 'after 2, and so now')]:
        p.box(x, 180, w, 46, *lines, kind=kind)
    for x, w, words in [(110, 310, 'Held(0)'), (430, 250, 'Held(1)'), (690, 80, 'Held(2)'), (780, 100, 'Held(7)')]:
        p.box(x, 255, w, 46, words)
    p.text(450, 326, 'from left to right in time; other calls made five entries more, then a Sync of the page is done: it raises the mark to the entries before its own', 'small')
    p.save()


SAYS = {
    'sunvm': 'the program', 'vm_script': 'plans', 'vm_report': 'texts', 'trace_text': 'traces read', 'trace_check': 'traces judged', 'printed_traces': 'a law on them',
    'block_runs': 'lines, by threads', 'lane_driver': 'given turns', 'seg_map': 'parts of files', 'volume_format': 'block 0', 'kernel_lock': 'one holder', 'vm_core': 'events', 'kernel_close': 'disks come out', 'clock_hands': 'hands move', 'vm_kernel': "threads' calls",
    'fault_entry': 'loads, stores', 'mmap_calls': 'mappings', 'proc_calls': 'fork, exit', 'file_calls': 'files', 'seg_vn': 'segments', 'home_pages': 'pages come home', 'seg_ops': 'small steps',
    'vm_world': "state's meaning", 'page_store': 'pages by name', 'anon_slots': 'counts', 'anon_map': 'arrays', 'hat_layer': 'translations',
    'addr_space': 'pieces', 'core_arena': 'frames', 'page_hash': 'names', 'page_lists': 'free, cached', 'page_lock': 'holders, bits',
    'page_clock': 'two hands', 'disk_file': 'a file as disk', 'disk_stripe': 'turn by turn', 'disk_mirror': 'each on both',
    'block_device': 'disks, streams', 'filled': 'equal items', 'hash_chains': 'chains', 'swap_slots': 'least free', 'flat_model': 'what it means',
    'flat_state': 'kept plainly', 'vnode_files': 'extents', 'vm_types': 'calls, replies', 'entry_list': 'short entries', 'zero_objects': 'by number',
    'disk_marks': 'what blocks have', 'mark_laws': 'true marks',
    'volume_files': 'mounted files', 'stored_files': 'shown, closed', 'command_line': 'words', 'vm_run': 'one run', 'run_endings': 'ways to end', 'run_input': 'what is asked', 'run_report': 'tables, report',
    'run_outcome': 'how it ended', 'run_kernel': 'start, close', 'plan_runs': 'lines made', 'run_opening': 'ready to run', 'joined_disk': 'two as one', 'volume_disks': 'one or two',
}
WIDE, HIGH, GAP, STEP = 116, 46, 12, 88


def stands_on():
    """Each crate that isn't of tests or timed, with those that it stands on, less those that one of these brings along; and the program's."""
    lines = [line.split('#')[0].split(':') for line in open(os.path.join(HERE, '../../crates.txt'))]
    all_of = {line[0].split()[0]: line[1].split() for line in lines if len(line) > 1}
    all_of = {crate: [it for it in below if it in all_of] for crate, below in all_of.items() if not crate.startswith(('test_', 'bench_'))}

    def reach(crate):
        return set(all_of[crate]).union(*map(reach, all_of[crate]))

    return {crate: [it for it in below if not any(it in reach(other) for other in below)] for crate, below in all_of.items()}, reach('sunvm') | {'sunvm'}


def rows_of(below, program):
    """The row of each crate: one under the lowest that stands on it; one that nothing stands on yet is one over the highest under it."""
    above = {crate: [it for it in below if crate in below[it] and it in program] for crate in below}
    rows = {}

    def row(crate):
        if crate not in rows:
            rows[crate] = 1 + max(map(row, above[crate]), default=-1)
        return rows[crate]

    for crate in filter(program.__contains__, below):
        row(crate)
    for crate in below:
        if crate not in program:
            rows[crate] = min((row(it) for it in below[crate]), default=1) - 1
    return rows


def wide(at):
    return WIDE if isinstance(at, str) else 8


def places(below, rows):
    """The middle of each crate, and of each line where it crosses a row: of some orders that one with the fewest crossings and the shortest lines."""
    joins, order = [], [[] for _ in range(max(rows.values()) + 1)]
    for crate, row in rows.items():
        order[row].append(crate)
    for crate, under in below.items():
        for to in under:
            way = [crate, *((crate, to, row) for row in range(rows[crate] + 1, rows[to])), to]
            joins += [(row, *two) for row, two in enumerate(zip(way, way[1:]), rows[crate])]
            for at in way[1:-1]:
                order[at[2]].append(at)
    best = min((settled(order, joins, random.Random(seed)) for seed in range(60)), key=lambda x: cost(x, joins))
    left = min(best[at] - wide(at) / 2 for at in best)
    return {at: round(it - left + 15, 1) for at, it in best.items()}


def settled(order, joins, chance):
    """From an order by chance, each row in turn is put near what it is joined to."""
    near = {at: [] for row in order for at in row}
    for _, one, other in joins:
        near[one].append(other)
        near[other].append(one)
    x = {at: chance.random() * 900 for row in order for at in row}
    for turn in range(40):
        for row in order if turn % 2 else order[::-1]:
            wish = {at: sum(x[it] for it in near[at]) / len(near[at]) if near[at] else x[at] for at in row}
            spread(sorted(row, key=wish.get), wish, x)
    return x


def cost(x, joins):
    crossings = sum((x[a] - x[c]) * (x[b] - x[d]) < 0 for (row, a, b), (other, c, d) in itertools.combinations(joins, 2) if row == other)
    return 400 * crossings + sum(abs(x[a] - x[b]) for _, a, b in joins) + 2 * (max(x.values()) - min(x.values()))


def spread(row, wish, x):
    """Puts a row's places at their wishes, as near as they can be without one over another."""
    groups = []
    for at in row:
        groups.append([[at], wish[at]])
        while len(groups) > 1:
            (first, one), (second, other) = groups[-2:]
            need = (width(first) + width(second)) / 2 + GAP
            if other - one >= need:
                break
            middle = (one * len(first) + other * len(second)) / (len(first) + len(second))
            groups[-2:] = [[first + second, middle]]
    for members, middle in groups:
        at = middle - width(members) / 2
        for it in members:
            x[it] = at + wide(it) / 2
            at += wide(it) + GAP


def width(members):
    return sum(map(wide, members)) + GAP * (len(members) - 1)


def layers():
    below, program = stands_on()
    rows = rows_of(below, program)
    x = places(below, rows)
    top = lambda row: 20 + STEP * row
    p = Picture('layers.svg', 'The crates, and what each stands on', round(max(x.values()) + WIDE / 2 + 15), top(max(rows.values())) + HIGH + 44)
    for crate, under in below.items():
        for to in under:
            way = [f'{x[crate]} {top(rows[crate]) + HIGH}']
            for row in range(rows[crate] + 1, rows[to]):
                at = x[crate, to, row]
                way += [f'{at} {top(row)}', f'{at} {top(row) + HIGH}']
            p.path('M' + 'L'.join([*way, f'{x[to]} {top(rows[to]) - 2}']))
    for crate, row in rows.items():
        p.box(x[crate] - WIDE / 2, top(row), WIDE, HIGH, crate, *filter(None, [SAYS.get(crate)]), kind='box' if crate in program else 'soft')
    p.text(p.width / 2, top(max(rows.values())) + HIGH + 28, 'an arrow leads to what a crate stands on' + ('' if set(rows) <= program else '; dashed: not in the program'), 'small')
    p.save()


def rooms_of():
    """The rooms by number, as the comments of crates.txt have them, with their crates."""
    rooms = []
    for line in open(os.path.join(HERE, '../../crates.txt')):
        if line.startswith('# ') and line[2].isdigit():
            rooms.append((line[2:].strip(), []))
        elif line.startswith('#'):
            rooms.append((None, []))
        elif ':' in line and rooms:
            rooms[-1][1].append(line.split(':')[0].split()[0])
    return {int(head.split('.')[0]): (head.split('. ')[1], crates) for head, crates in rooms if head}


def rooms():
    """Each room in its place; an arrow where no other room comes between."""
    of, left, right, gap = rooms_of(), 15, 625, 26
    p, boxes = Picture('rooms.svg', 'The ten rooms, and their crates', 900, 0), {}

    def room(number, x, y, wide, high=0):
        head, crates = of[number]
        fit = max(2, round(wide / 118))
        rows = [crates[i:i + fit] for i in range(0, len(crates), fit)]
        high = max(high, 38 + 18 * len(rows))
        p.box(x, y, wide, high)
        p.text(x + wide / 2, y + 22, f'{number}. {head}')
        for at, row in enumerate(rows):
            p.text(x + wide / 2, y + 44 + 18 * at, ',  '.join(row), 'small')
        boxes[number] = x, y, wide, high
        return y + high + gap

    y = room(10, left, 15, 870)
    at = room(2, right, y, 260)
    y = room(9, left, y, 580)
    y = room(8, left, y, 580)
    middle = max(y, at)
    room(1, right, middle, 260)
    y = room(7, left, middle, 580)
    y = max(room(5, left, y, 280), room(6, left + 300, y, 280))
    y = room(4, left, y, 580)
    y = room(3, left, y, 580)
    for one, other, x in ((10, 9, 305), (10, 2, 755), (9, 8, 305), (8, 7, 305), (7, 5, 155), (7, 6, 455), (5, 4, 155), (6, 4, 455), (4, 3, 305), (2, 1, 755)):
        p.arrow(x, boxes[one][1] + boxes[one][3], x, boxes[other][1] - 2)
    p.arrow(595, middle + 28, right - 2, middle + 28)
    p.text(450, y + 4, 'an arrow leads to what a room stands on, and so on what lies below that', 'small')
    p.head = p.head.replace('0 0 900 0', f'0 0 900 {y + 20}')
    p.save()


if __name__ == '__main__':
    for draw in (layers, rooms, page_life, fault, fork, cell, turn, two_loads, marks):
        draw()
