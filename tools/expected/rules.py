"""Lines with 01's own figures, docs/DIFFERENCES.md's rows, each refusal, and areas that no build left."""

from limits import AREAS

from .lines import MODEL, RULES, text
from .recorded import refused

LAST = 2 ** 64 - 1
ZEROS18 = text([0] * 18)
TREE = ('show record', 'show 0', 'show 1', 'show 2', 'show 3', 'show 4', 'show 5')
ASKED = ('closes', 'children', 'siblings', 'names', 'leaves', 'walk', 'byte_size', 'nodes', 'is_empty')
FOUR = 'areas 1 0 0 0 4 10', 'levels 0 1 1 0', 'labels 10 20 30 40'


def says(lines, *both):
    """Lines and 01's answers in turn."""
    for line, answer in zip(both[::2], both[1::2]):
        lines.ask(line, answer, RULES)


# Either side of each edge

def edges(lines):
    lines.remark('01, either side of each edge: the empty list; the list 0 1 1 0')
    lines.set('areas 1 0 0 0 0 2')
    says(lines, 'build', 0, 'bit 0:1', '1 0', 'bit 2', refused(7, 2), 'first_child 0 0', '-', 'next_sibling 0 0', '-', 'byte_size', 16,
         'nodes', 0, 'is_empty', 1, 'label 0 0', '-', 'leaf_count 0 0', 0, 'walk', '')
    lines.set(*FOUR)
    says(lines, 'build', 4, 'bit 0:9', '1 1 1 0 1 0 0 1 0 0', 'close 0 1 2 4 7', '9 6 3 5 8', 'leaves', '3 2 0 0 0', 'leaf_count 1 1', 2,
         'byte_size', 32, 'nodes', 4, 'is_empty', 0, 'show 0', '1 151', 'label 7 4', 40)
    lines.remark('01, either side of each edge: the list rule; growth')
    for levels, at in (('1', 0), ('0 2', 1), ('60', 0), ('61', 0)):
        lines.set('areas 1 0 0 0 2 6', f'levels {levels}', 'labels' + ' 5' * len(levels.split()))
        says(lines, 'build', refused(3, at))
    for level, bits, question, answer in ((1, '111010011000', 'first_child 7 4', '8:5:50'), (0, '111010010100', 'next_sibling 7 4', '9:5:50')):
        lines.set('areas 1 0 0 0 5 12', *FOUR[1:])
        says(lines, 'build', 4, 'grow 2 50', refused(3, 4), 'show 0', '1 151', f'grow {level} 50', 5, 'bit 0:11', text(bits), question, answer,
             'show 4', '5 10 20 30 40 50', 'show 5', 12)
    lines.remark('01, either side of each edge: 31, 32 and 33 nodes of level 0')
    for n, size in ((31, 140), (32, 183), (33, 187)):
        lines.set('areas 3 3 2 2 33 68', f'levels 0:0:{n}', f'labels 1:{n}')
        says(lines, 'build', n, 'byte_size', size)
        if n > 31:
            says(lines, 'close 63', 64)
    says(lines, 'next_sibling 63 32', '65:33:33')
    lines.set('areas 3 3 2 2 32 66', 'levels 0:0:31', 'labels 1:31')
    says(lines, 'build', 31, 'grow 0 32', 32, 'show 1', '3 2 0 65', 'close 63', 64, 'byte_size', 183)
    dictionaries(lines)


def dictionaries(lines):
    lines.remark('01, either side of each edge: dictionaries')
    lines.set('areas 8 600 8 8 0 0', 'put 0 3 9223372036854775808 1', 'length 512')
    says(lines, 'dict build', '4:1:1', 'show 1', '600 1 255 1', 'dict rank_one 255', 1, 'dict select_one 2', 256)
    lines.set('put 0 3 0 0', 'put 0 0 1')
    says(lines, 'dict build', '2:1:1', 'dict rank_one 256', 1, 'dict select_one 2', '-')
    lines.set(f'put 0 0 {LAST}:{LAST}:3 {LAST >> 1}')
    says(lines, 'dict build', '256:1:1', 'dict select_one 255 256', '254 -')
    lines.set(f'put 0 3 {LAST}')
    says(lines, 'dict build', refused(5, 0, 0), 'show 1', 600, 'show record', text([0, 512] + [0] * 16))


# Refusals

def refusals(lines):
    """Each of 01's table but DEEP, which no list of up to 1,048,575 nodes comes to, and TEXT, which is listwalk's."""
    lines.remark('01, table of refusals: LENGTHS before LEVEL and ROOM; LEVEL before ROOM; the list 0 1 1 0')
    lines.set('areas 0 0 0 0 0 0', 'levels 1', 'labels 5 6')
    says(lines, 'build', refused(1, 0))
    lines.set('labels 5')
    says(lines, 'build', refused(3, 0))
    lines.set('levels 0')
    says(lines, 'build', refused(4, 5), 'show record', ZEROS18)
    lines.set(*FOUR)
    says(lines, 'build', 4, 'close 3 9 10', ' '.join([refused(8, 3), refused(8, 9), refused(7, 10)]), 'bit 10', refused(7, 10),
         'first_child 1 2 3 3 10 5', ' '.join([refused(7, 1), refused(8, 3), refused(7, 10)]),
         'next_sibling 1 2 3 3 10 5', ' '.join([refused(7, 1), refused(8, 3), refused(7, 10)]),
         'label 1 2 3 3 10 5', ' '.join([refused(7, 1), refused(8, 3), refused(7, 10)]),
         'leaf_count 1 2 3 3 10 5', ' '.join([refused(7, 1), refused(8, 3), refused(7, 10)]),
         'grow 0 50', refused(4, 5), 'show 0', '1 151', 'show 4', '4 10 20 30 40', 'show 5', 10,
         'walk 3 4', refused(4, 10), 'show 10', 3, 'walk 4 3', refused(4, 11), 'show 11', 3, 'walk 4 4', '0:10 1:20 1:30 0:40')
    lines.remark('01, table of refusals: FULL comes before ROOM for areas 0 to 4, and after it for area 5; a growth to it')
    for room, answer in ((16832, refused(5, 1, 0)), (16831, refused(4, 5))):
        lines.set(f'areas 0 0 0 0 0 {room}', 'levels 0:254 254:0:32', 'labels 0:0:8415')
        says(lines, 'build', answer, 'show record', ZEROS18, 'show 5', room)
    lines.set('areas 275 855 20 4 8384 16770', 'levels 0:254 254:1:32', 'labels 1:8383')
    says(lines, 'build', 8383, 'grow 0 7', refused(5, 1, 0), 'nodes', 8383, 'show 5', 16770)
    many(lines)
    lines.remark('01, table of refusals: BROKEN by the counts, by a string that is not balanced, by a length past its words')
    for counts in ('1 2', '0 2 1', '0 65', f'0 {LAST}', '0 2 0 0 0 0 1', '0 2 0 0 0 0 0 0 0 0 1', '0 2 0 0 0 0 0 0 0 0 0 0 0 0 0 0 0 1'):
        lines.set('areas 1 0 0 0 0 9', 'put 0 0 1', 'record ' + text((counts.split() + ['0'] * 18)[:18]))
        says(lines, 'close 0', refused(9, 0), 'bit 9', refused(9, 0), 'first_child 0 0', refused(9, 0), 'byte_size', refused(9, 0),
             'nodes', refused(9, 0), 'is_empty', refused(9, 0), 'walk', refused(9, 0), 'closes', refused(9, 0), 'show 0', '1 1')
    for word, record in ((5, '0 2'), (2, '0 2'), (3, '0 2'), (11, '1 4'), (1, '1 2'), (1, '0 65'), (1, '0 0')):
        lines.set('areas 1 0 0 0 1 9', f'put 0 0 {word}', f'record {record}' + ' 0' * 16, 'put 5 0 1:1:9')
        says(lines, 'grow 0 5', 1 if (word, record) == (5, '0 2') else refused(9, 0), 'show 5', 9)
    lines.set('areas 1 4 2 2 0 0', 'length 65')
    says(lines, 'dict build', refused(9, 0), 'string get 0', refused(9, 0), 'string push 1', refused(9, 0), 'string set1 0', refused(9, 0),
         'string resize 3', refused(9, 0), 'string ones', refused(9, 0), 'string byte_size', refused(9, 0), 'string rank_zero 99', refused(9, 0),
         'scan rank_one 0', refused(9, 0))


def many(lines):
    """A string of 1,048,575 nodes put as it is, and a dictionary over 2,097,153 places, where there is room for them."""
    if AREAS[0] < 32769:
        return
    lines.remark('01, table of refusals: MANY, by a growth and by a dictionary')
    lines.set('areas 32768 0 0 0 0 0', f'put 0 0 {LAST}:{LAST}:16384', 'record 1048575 2097152' + ' 0' * 16)
    says(lines, 'grow 0 5', refused(2, 1048576))
    lines.set('areas 32769 8192 2048 64 0 0', 'length 2097152')
    says(lines, 'dict build', '0:0:0')
    lines.set('length 2097153')
    says(lines, 'dict build', refused(2, 2097153))


# docs/DIFFERENCES.md

def strays(lines):
    lines.remark('01, where docs/DIFFERENCES.md has a row: words and strings')
    for width in (8, 64):
        for question in ('get', 'set0', 'set1', 'rank_one', 'rank_zero', 'pred_one', 'pred_zero', 'succ_one', 'succ_zero', 'get_close'):
            says(lines, f'word{width} 1 {question} {width}', refused(7, width))
    says(lines, 'word8 6 get_close 0', refused(8, 0))
    lines.set('areas 1 0 0 0 0 0')
    says(lines, 'string push 0 1 0 1', '1 2 3 4')
    for subject in ('string', 'scan'):
        for question in ('rank_zero', 'pred_zero', 'succ_zero'):
            says(lines, f'{subject} {question} 4 9', f'{refused(7, 4)} {refused(7, 9)}')
    lines.set('areas 1 0 0 0 0 0')
    says(lines, 'string push 0', 1)
    for subject in ('string', 'scan'):
        for question, answer in (('rank_one', 0), ('pred_one', '-'), ('succ_one', '-'), ('rank_zero', refused(7, LAST)),
                                 ('pred_zero', refused(7, LAST)), ('succ_zero', refused(7, LAST))):
            says(lines, f'{subject} {question} {LAST}', answer)
    lines.set('areas 1 0 0 0 0 0')
    says(lines, 'string resize 0', 0, 'string byte_size', 0, 'string resize 64', 64, 'string byte_size', 8, 'show 0', 1)
    lines.set('areas 1 0 0 0 0 0')
    says(lines, 'string push 1', 1, 'string set0 1', refused(7, 1), 'show 0', '1 1', 'string resize 0', 0, 'string byte_size', 0,
         'string rank_one 0', 0, 'string pred_one 0', '-', 'string succ_one 0', '-', 'string ones', '', 'string select_zero 1', '-',
         'string pred_zero 1', refused(7, 1), 'string succ_zero 0', refused(7, 0), 'string push 0', 1, 'string get 0', 0,
         'string resize 64', 64, 'string byte_size', 8, 'string push 1', refused(4, 0), 'string resize 65', refused(4, 0))
    lines.set('areas 1 0 0 0 0 0')
    says(lines, 'string push 1 1', '1 2', 'string resize 1', 1, 'string rank_one 1', 1, 'string pred_one 1', 0, 'string succ_one 1', '-',
         'string select_one 2', '-', 'string select_zero 1', '-', 'string resize 2', 2, 'string get 0:2', '1 0 -')
    lines.remark('01, where docs/DIFFERENCES.md has a row: dictionaries and trees')
    lines.set('areas 8 600 2 2 0 0', 'length 512')
    says(lines, 'dict build', '0:0:0', 'dict rank_one 0', 0, 'dict select_one 0 1', '- -', 'dict pred_one 0', '-', 'dict succ_one 0', '-')
    lines.set('put 0 0 1')
    says(lines, 'dict build', '2:1:1', 'dict rank_one 256', 1, 'dict pred_one 256', 0, 'dict succ_one 256', '-')
    lines.set('areas 1 0 0 0 3 8', 'levels 0 0 1', 'labels 1 2 3')
    says(lines, 'build', 3, 'close 2 7 8 64', ' '.join([refused(8, 2), refused(8, 7), refused(7, 8), refused(7, 64)]))


# Areas that no build left

def damaged(lines):
    lines.remark('model: areas that no build left')
    # a close before its open
    lines.set('areas 3 5 2 2 2 6', f'put 0 0 {LAST - 2} 1 3', 'put 1 0 4 0 3 4 1', 'put 4 0 7 8',
              'record 2 65 4 0 0 0 5 0 0 0 1 0 0 0 1 0 0 0')
    lines.by_model(*ASKED, 'close 0:64', 'next_sibling 2 1', 'leaf_count 2 1', 'grow 0 5')
    # a label that is not there; a string that lacks its close
    lines.set('areas 1 0 0 0 1 4', 'put 0 0 3', 'put 4 0 7', 'record 1 4' + ' 0' * 16)
    lines.by_model(*ASKED, 'first_child 0 0')
    lines.set('record 0 4' + ' 0' * 16)
    lines.by_model(*ASKED, 'first_child 0 0', 'grow 0 5')
    # good areas of 33 nodes of level 0, one element changed at a time
    for area, at, number in ((0, 0, LAST), (0, 0, LAST - 1), (0, 1, 0), (0, 2, 0), (0, 2, 2), (1, 0, 0), (1, 0, 3), (1, 1, 1), (1, 2, 64),
                             (2, 0, 1), (2, 0, 3), (2, 1, 1), (3, 0, 3), (3, 1, 1), (3, 0, LAST), (3, 1, LAST), (4, 32, 9)):
        lines.set('areas 3 3 2 2 33 68', 'levels 0:0:33', 'labels 1:33')
        lines.ask('build', 33, MODEL)
        lines.set(f'put {area} {at} {number}')
        lines.by_model('close 0 1 63', 'next_sibling 0 0 63 32', 'leaf_count 0 0', 'byte_size', 'dict rank_one 0 63 65 66', 'dict select_one 1:3',
                       'dict pred_one 0 66', 'dict succ_one 1 66')
    lines.remark('model: a dictionary that no build left')
    for data, middle, large, question in (
            ([0], [0, 0], [0, LAST], 'rank_one 0'), ([], [0, 1], [0, LAST], 'rank_one 0'), ([1, 0], [0, 0], [0, LAST], 'pred_one 0'),
            ([1, 0], [0, 0], [0, LAST - 1], 'succ_one 0 5'), ([], [0, 1], [0, 0], 'select_one 1'), ([], [0, 0], [0, 1], 'select_one 1'),
            ([0], [0, 1], [0, 0], 'select_one 1'), ([], [0, 1], [0, LAST - 1], f'select_one {LAST}'),
            ([], [0, 2], [0, LAST - 1], f'select_one {LAST}'), ([2, 5], [0, 0], [0, 0], 'rank_one 4:6'), ([1, 5], [9, 0], [0, 0], 'rank_one 5')):
        lines.set(f'areas 0 {len(data)} 2 2 0 0', *([f'put 1 0 {text(data)}'] if data else []), f'put 2 0 {text(middle)}', f'put 3 0 {text(large)}',
                  f'record 0 0 0 0 0 0 {len(data)} 0 0 0 1 0 0 0 1 0 0 0')
        lines.by_model('dict ' + question)


# No cases

def no_cases(lines):
    lines.remark('no case')
    for line, answer in (('', ''), ('closed', '? no such case'), ('word8 256 get 0', '? too large for its place'),
                         ('word8 255 push 0', '? no such case'), ('word8 255 get', '? a number is missing, or is none'),
                         ('word8 255 get 7 x', '1 ? a number is missing, or is none')):
        lines.no_case(line, answer)
    lines.ask('word64 1 get 0:2:2 1:0', '1 1 0 0 0 0 0 1', RULES)
