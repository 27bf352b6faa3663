"""By what a CREATE TRIGGER is refused (docs/SQL.md, "What changes the catalog"). What a trigger does when it runs is no part of a session."""

import tree
from expressions import WrongClass, class_of, goes_with, need_value, references
from values import CLASSES


def tables_of(trigger):
    """The tables that a trigger names."""
    return [trigger.table] + inserted_tables(trigger.actions)


def inserted_tables(actions):
    """The tables that actions insert into."""
    names = []
    for action in actions:
        if isinstance(action, tree.Insert):
            names.append(action.table)
        elif isinstance(action, tree.If):
            names += inserted_tables(action.then) + inserted_tables(action.otherwise or [])
    return names


class Check:
    """The check of one trigger. A name without a dot is a variable in it; columns are looked for only where the table is there."""

    def __init__(self, trigger, tables, faults):
        self.trigger = trigger
        self.tables = tables
        self.table = tables.get(trigger.table)
        self.columns = {column.name: column.type for column in self.table.columns} if self.table else None
        self.rows = {name: row for row, name in trigger.aliases}
        self.variables = {}
        self.faults = faults

    def run(self):
        """Adds the faults of the trigger, from left to right."""
        self.faults.add_twice(self.trigger.columns)
        for name in self.trigger.columns:
            self.need_column(name)
        if self.table is None:
            self.faults.add("Missing", self.trigger.table)
        for name, kind in self.trigger.variables:
            if name in self.variables:
                self.wrong()
            self.variables.setdefault(name, kind)
        self.check_actions(self.trigger.actions)

    def wrong(self):
        """A wrong class, and what counts as one."""
        self.faults.add("BadType", self.trigger.name)

    def need_column(self, name):
        """Answers whether the table has a column, or is not there itself."""
        if self.table and name not in self.columns:
            self.faults.add("Missing", name)
            return False
        return True

    def check_actions(self, actions):
        """Actions in their order."""
        for action in actions:
            if isinstance(action, tree.Set):
                self.check_target(action.target)
                self.check_expression(action.expression, "value")
            elif isinstance(action, tree.Insert):
                self.check_insert(action)
            else:
                self.check_expression(action.condition, "truth")
                self.check_actions(action.then)
                self.check_actions(action.otherwise or [])

    def check_target(self, target):
        """What a SET sets is a variable, or a column of NEW outside the key."""
        if target.alias is None:
            if target.name not in self.variables:
                self.wrong()
        elif target.alias not in self.rows:
            self.wrong()
        elif self.need_column(target.name):
            if self.rows[target.alias] != "new" or self.table and target.name in self.table.key:
                self.wrong()

    def check_insert(self, action):
        """An INSERT, which has as many values as columns."""
        table = self.tables.get(action.table)
        names = [column.name for column in table.columns] if table else []
        if table is None:
            self.faults.add("Missing", action.table)
        self.faults.add_twice(action.columns or [])
        for name in action.columns or []:
            if table and name not in names:
                self.faults.add("Missing", name)
        if (action.columns or table) and len(action.columns or names) != len(action.rows[0]):
            self.wrong()
        for expression in action.rows[0]:
            self.check_expression(expression, "value")

    def check_expression(self, expression, wanted):
        """An expression that is a truth or a value."""
        lacking = [reference for reference in references(expression) if not self.is_there(reference)]
        if lacking:
            return
        try:
            if wanted == "truth":
                goes_with("truth", class_of(expression, self.class_of_reference))
            else:
                need_value(expression, self.class_of_reference)
        except WrongClass:
            self.wrong()

    def is_there(self, reference):
        """Whether a name behind a dot is there; behind an unknown alias it is a column that is not."""
        if reference.alias is None:
            return True
        if reference.alias not in self.rows:
            self.faults.add("Missing", reference.name)
            return False
        return self.need_column(reference.name)

    def class_of_reference(self, reference):
        """The class of a variable that is declared, or of a column."""
        if reference.alias is None:
            if reference.name not in self.variables:
                raise WrongClass
            return CLASSES[self.variables[reference.name].kind]
        return CLASSES[self.columns[reference.name].kind] if self.table else "any"
