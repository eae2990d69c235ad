#!/usr/bin/env python3
"""Draws the crates by the stages of the pipeline, from crates.txt, as docs/pipeline.svg.

    tools/pipeline_picture.py [FILE]

Each crate of crates.txt stands in one stage of the table below; the script says so where one is missing. Below a stage's name stand
the stages that its crates stand on. FILE is another place for the picture.
"""
import os
import sys

import command_words

TOP = os.path.join(os.path.dirname(os.path.abspath(__file__)), '..')
STAGES = [
    ('outside world', 'fx_base'),
    ('text', 'ml_lexer ml_syntax ml_moves ml_builder ml_parser prelude_ml'),
    ('names and Core', 'effect_meaning surface_meaning name_uses name_scopes prelude_tree core_rules core_sugar core_check core_terms'),
    ('types', 'type_terms type_graph type_readings ml_infer inference_laws typed_texts'),
    ('lowering', 'low_terms match_lower core_shapes slot_builder closure_convert places rv_select low_texts'),
    ('runtime', 'rt_layout exception_frames fiber_stacks continuation_words handler_chain c_callbacks c_prims out_log domain_runtime '
                'fiber_stealing'),
    ('assembly', 'rv_model rv_table rv_asm image_build'),
    ('running', 'rv_step serial_runner domain_threads runner_bench'),
    ('program', 'effects_top effects_cli'),
]
COLOURS = ['#eceff1', '#e3f2fd', '#e8f5e9', '#fff8e1', '#fce4ec', '#ede7f6', '#e0f2f1', '#fbe9e7', '#f1f8e9']
WIDTH, LEFT, BOX, ROW, GAP = 900, 210, 26, 34, 26
FONT = 'font-family="sans-serif"'


def crates():
    """Each crate with the crates that it stands on."""
    with open(os.path.join(TOP, 'crates.txt')) as file:
        lines = [line.split(':') for line in file if ':' in line and not line.startswith('#')]
    return {before.split()[0]: after.split() for before, after in lines}


def rows_of(names):
    """The names in rows that fit, each with its place and its width."""
    rows, x = [[]], LEFT
    for name in names:
        width = 8 * len(name) + 16
        if x + width > WIDTH - 16:
            rows.append([])
            x = LEFT
        rows[-1].append((name, x, width))
        x += width + 8
    return rows


def stage(title, colour, y, rows, below):
    """The parts of a stage's band, and its height."""
    height = ROW * len(rows) + 16
    parts = ['<rect x="8" y="%d" width="%d" height="%d" rx="6" fill="%s"/>' % (y, WIDTH - 16, height, colour),
             '<text x="20" y="%d" %s font-size="15" font-weight="bold">%s</text>' % (y + 26, FONT, title)]
    for number, line in enumerate(below):
        parts.append('<text x="20" y="%d" %s font-size="10" fill="#555">%s</text>' % (y + 40 + 11 * number, FONT, line))
    for number, row in enumerate(rows):
        top = y + 12 + ROW * number
        for name, x, width in row:
            parts.append('<rect x="%d" y="%d" width="%d" height="%d" rx="4" fill="white" stroke="#78909c"/>' % (x, top, width, BOX))
            parts.append('<text x="%d" y="%d" font-family="monospace" font-size="13" text-anchor="middle">%s</text>'
                         % (x + width // 2, top + 18, name))
    return parts, height


def folded(names):
    """The stages below, in lines that fit beside the boxes."""
    lines, line = [], ''
    for name in names:
        more = (line + ', ' + name) if line else 'on ' + name
        if len(more) > 32:
            lines.append(line + ',')
            more = name
        line = more
    return lines + [line] if line else lines


def picture(stands_on):
    places = {name: title for title, names in STAGES for name in names.split()}
    missing = [name for name in stands_on if name not in places]
    if missing:
        sys.exit('pipeline_picture: no stage has %s: add them to the table' % ', '.join(missing))
    parts, y = [], 8
    for (title, names), colour in zip(STAGES, COLOURS):
        present = [name for name in names.split() if name in stands_on]
        needed = {places[lower] for name in present for lower in stands_on[name] if lower in places}
        below = folded([other for other, _ in STAGES[1:] if other in needed and other != title])
        rows = rows_of(present)
        rows += [[]] * (max(0, (28 + 11 * len(below) + ROW - 1) // ROW - len(rows)) if below else 0)
        more, height = stage(title, colour, y, rows, below)
        parts += more
        y += height
        if title != STAGES[-1][0]:
            parts.append('<path d="M100 %d v%d m-5 -7 l5 7 l5 -7" stroke="#455a64" fill="none" stroke-width="1.5"/>' % (y + 3, GAP - 8))
        y += GAP
    head = '<svg xmlns="http://www.w3.org/2000/svg" viewBox="0 0 %d %d" width="%d" height="%d">' % (WIDTH, y, WIDTH, y)
    return '\n'.join([head, '<rect width="100%" height="100%" fill="white"/>'] + parts + ['</svg>', ''])


def main():
    command_words.begin(__doc__)
    path = sys.argv[1] if len(sys.argv) == 2 else os.path.join(TOP, 'docs', 'pipeline.svg')
    with open(path, 'w') as file:
        file.write(picture(crates()))


if __name__ == '__main__':
    main()
