"""Triggers: what CREATE TRIGGER refuses (docs/SQL.md), and what triggers do at a conflict (docs/REPLICATION.md, "Conflicts")."""

import values
from expressions import Overflow, WrongClass, class_of, demand, evaluate, holds, references
from faults import Refused, exists, missing, wrong_type
from rows import fitted_row
from statements import Add, Assign, If, all_actions


def check(catalog, trigger):
    """Refuses a trigger of which something is not there, and then one of which something is of the wrong type."""
    if trigger.name in catalog.triggers:
        exists(trigger.name)
    if trigger.table not in catalog.tables:
        missing(trigger.table)
    names = catalog.tables[trigger.table].names()
    for name in trigger.of:
        if name not in names:
            missing(name)
    for action in all_actions(trigger.actions):
        check_names(catalog, trigger, action)
    for action in all_actions(trigger.actions):
        try:
            check_types(catalog, trigger, action)
        except WrongClass:
            wrong_type(trigger.name)


def expressions_of(action):
    """The expressions of an action itself."""
    if isinstance(action, Assign):
        return [action.value]
    return action.values if isinstance(action, Add) else [action.condition]


def check_names(catalog, trigger, action):
    """The table, the columns and the rows that an action names are there."""
    names = catalog.tables[trigger.table].names()
    aliases = [alias for _, alias in trigger.rows]
    if isinstance(action, Assign) and action.alias in aliases and action.name not in names:
        missing(action.name)
    if isinstance(action, Add):
        if action.table not in catalog.tables:
            missing(action.table)
        for name in action.columns or []:
            if name not in catalog.tables[action.table].names():
                missing(name)
    for expression in expressions_of(action):
        for reference in references(expression):
            if reference.alias is not None and (reference.alias not in aliases or reference.name not in names):
                missing(reference.name)


def check_types(catalog, trigger, action):
    """An action sets a variable, or a column of NEW outside the key; it inserts as many values as columns; its condition is one, its values are none."""
    table = catalog.tables[trigger.table]
    classes = table.classes()
    variables = {name: values.CLASSES[kind.name] for name, kind in trigger.variables}

    def class_of_reference(reference):
        if reference.alias is not None:
            return classes[reference.name]
        if reference.name not in variables:
            raise WrongClass
        return variables[reference.name]

    if isinstance(action, Assign) and action.alias is None and action.name not in variables:
        raise WrongClass
    if isinstance(action, Assign) and action.alias is not None and (("NEW", action.alias) not in trigger.rows or action.name in table.key_names()):
        raise WrongClass
    if isinstance(action, Add):
        columns = action.columns or catalog.tables[action.table].names()
        if len(columns) != len(action.values) or len(set(columns)) != len(columns):
            raise WrongClass
    for expression in expressions_of(action):
        found = class_of(expression, class_of_reference)
        if isinstance(action, If):
            demand(found, values.TRUTH)
        elif found == values.TRUTH:
            raise WrongClass


class Failed(Exception):
    """An action of a trigger cannot be done."""


class Firing:
    """The triggers of a table at work on one update: what is stored, what it was taken for, what it becomes, and the rows that were inserted."""

    def __init__(self, catalog, rows, table, images):
        self.catalog = catalog
        self.rows = rows.copy()
        self.table = table
        self.images = images
        self.inserted = []
        self.aliases = {}
        self.variables = {}
        self.types = {}

    def fire(self, differing):
        """Those that are without OF, or of which a column behind OF differs, in order of their creation."""
        for trigger in self.catalog.triggers.values():
            if trigger.table == self.table.name and (not trigger.of or set(trigger.of) & differing):
                self.aliases = {alias: row for row, alias in trigger.rows}
                self.variables = {name: None for name, _ in trigger.variables}
                self.types = dict(trigger.variables)
                self.act(trigger.actions)

    def value_of(self, reference):
        """A variable, or a column of one of the three rows; NULL where that row has none."""
        if reference.alias is None:
            return self.variables[reference.name]
        return self.images[self.aliases[reference.alias]].get(reference.name)

    def act(self, actions):
        """Does actions one after the other."""
        for action in actions:
            if isinstance(action, Assign):
                self.assign(action)
            elif isinstance(action, Add):
                self.add(action)
            elif holds(action.condition, self.value_of):
                self.act(action.then)
            else:
                self.act(action.otherwise or [])

    def assign(self, action):
        """SET of a variable or of a column of NEW."""
        into = self.variables if action.alias is None else self.images["NEW"]
        types = self.types if action.alias is None else self.table.types()
        fitted = values.fit(evaluate(action.value, self.value_of), types[action.name])
        if fitted is values.UNFIT or (fitted is None and action.alias is not None and action.name in self.table.required()):
            raise Failed
        into[action.name] = fitted

    def add(self, action):
        """INSERT of a row whose key is not held by the rows before the update, nor by what triggers have inserted."""
        table = self.catalog.tables[action.table]
        columns = action.columns or table.names()
        given = dict(zip(columns, [evaluate(expression, self.value_of) for expression in action.values]))
        try:
            row = fitted_row(table, [given.get(name) for name in table.names()])
        except Refused as refused:
            raise Failed from refused
        if self.rows.get(table, table.key_of(row)) is not None:
            raise Failed
        change = (table.name, None, row)
        self.rows.apply(self.catalog, [change])
        self.inserted.append(change)


def fire(catalog, rows, table, images, differing):
    """The rows that triggers insert, or None where one fails; the row NEW of the images is changed by them."""
    firing = Firing(catalog, rows, table, images)
    try:
        firing.fire(differing)
    except (Failed, Overflow):
        return None
    return firing.inserted
