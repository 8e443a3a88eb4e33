"""A picture as one page of HTML that needs nothing else: it is zoomed and moved, shows lines of the trace, and is searched."""
import json
import re

from tsp_texts.svg import printable
from tsp_texts.template import PAGE


def line_of(act):
    """The line of the trace that an act is."""
    return f'{act.event} {act.node} {act.port} {act.tick} {act.text}'


def items(picture):
    """What of a drawn picture has lines: a place or a stroke, the node's name, and the lines. First steps, then datagrams."""
    history, names = picture.history, [node.name for node in picture.history.schedule.nodes]
    steps, found = {}, []
    for act in history.acts:
        steps.setdefault((act.event, act.node, act.port), []).append(act)
    for (_, node, port), acts in steps.items():
        x, y = round(picture.x(acts[0].at), 2), round(picture.lane(node, port), 2)
        found.append([x, y, x, y, names[node], [line_of(act) for act in acts]])
    took = {}
    for act in history.acts:
        event = history.schedule.events[act.event - 1]
        if act.text.startswith('took ') and event.kind == 'take':
            took.setdefault(event.datagram, []).append(act)
    for number, acts in took.items():
        post = history.posts[number]
        for act in acts:
            places = picture.x(post.act.at), picture.lane(post.act.node, post.act.port), picture.x(act.at), picture.lane(act.node, act.port)
            found.append([round(place, 2) for place in places] + [names[post.act.node], [line_of(post.act), line_of(act)]])
    return found


def page(picture):
    """The page of a picture."""
    parts = {'SVG': picture.svg(), 'TITLE': printable(picture.title)}
    parts['ITEMS'] = json.dumps(items(picture), separators=(',', ':')).replace('<', '\\u003c')
    return re.sub('@(TITLE|SVG|ITEMS)@', lambda found: parts[found[1]], PAGE)
