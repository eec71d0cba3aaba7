"""Prints the node table as JSON, for tools/explain.mjs: python3 tools/nodes_json.py"""
import json
import nodes
import table


def rows_in(name):
    """The rows that may stand where this class is wanted, by their types."""
    also, own = next((also, own) for one, _, also, own in nodes.CLASSES if one == name)
    found = rows_in(also) if also else {}
    return {**found, **{table.ROW[row].type: row for row in reversed(own.split())}}


def fields_of(row):
    return [{'name': field.name, 'sort': field.head, 'rest': [word.strip('"') for word in field.rest]} for field in row.fields]


if __name__ == '__main__':
    rows = {row.name: {'type': row.type, 'fields': fields_of(row)} for row in table.ROWS}
    words = {name: [word for _, word in table.variants(said)] for name, _, _, said in nodes.WORDS}
    print(json.dumps({'rows': rows, 'classes': {name: rows_in(name) for name, *_ in nodes.CLASSES}, 'words': words}))
