"""The slots of all matches in PostgreSQL. One row has both slots of a party, and the number of its newest save: the
fence is in the statement that writes."""
from database import Database, DatabaseError

TABLES = """
create table match (id bigint primary key, length smallint not null, rules smallint not null,
                    is_over boolean not null default false);
create table party (match bigint references match, number smallint, save bigint not null default 0,
                    slot0 bytea not null default '', slot1 bytea not null default '', primary key (match, number))
"""
# The text, its slot and the number of the save change in one statement.
SAVE = "update party set slot{slot} = $1, save = $2 where match = $3 and number = $4"
FENCES = {
    # A save is taken only where its number is one more than that of the newest: then, and only then, a row is changed.
    "next": " and save = $2::bigint - 1",
    # What a host must not do: with these a process overwrites what another one has saved.
    "equal": " and save in ($2::bigint - 1, $2)",
    "none": "",
}


class Store:
    def __init__(self, where, fence="next"):
        self.database = Database(where)
        self.save_text = SAVE + FENCES[fence]

    def create(self, matches, length, rules):
        """Makes the tables and so many matches, each with a row for the referee and for both seats."""
        for statement in TABLES.split(";"):
            self.database.ask(statement)
        for match in range(1, matches + 1):
            self.database.ask("insert into match values ($1, $2, $3)", match, length, rules)
            for number in range(3):
                self.database.ask("insert into party values ($1, $2)", match, number)

    def open_matches(self):
        """The id, the length and the rules of each match that is not over."""
        rows = self.database.ask("select id, length, rules from match where not is_over order by id")
        return [tuple(map(int, row)) for row in rows]

    def slots(self, match, number):
        """Both slots, by one statement: so no save comes between the two."""
        rows = self.database.ask("select slot0, slot1 from party where match = $1 and number = $2", match, number)
        return [bytes.fromhex(text[2:]) for text in rows[0]]

    def save_all(self, saves):
        """Writes these saves, by (match, party), in one transaction, and returns which of them were
        taken. The others were refused: another process has saved since. Rows are asked for in one order by all
        servers, so that no two wait for each other. Where the commit fails it is not known what was taken: then none is
        said to be."""
        taken = set()
        try:
            self.database.ask("begin")
            for (match, party), save in sorted(saves.items()):
                statement = self.save_text.format(slot=save.slot)
                if self.database.ask(statement, save.text, save.number, match, party) == 1:
                    taken.add((match, party))
            self.database.ask("commit")
        except DatabaseError:
            self.database.ask("rollback")
            return set()
        return taken

    def end(self, match):
        self.database.ask("update match set is_over = true where id = $1", match)
