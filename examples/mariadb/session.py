"""Sessions of MariaDB, through the program mariadb."""
import os
import subprocess


class Refused(RuntimeError):
    """The server answered with an error."""


class Session:
    """One mariadb, which is given statements and answers with lines."""

    def __init__(self, options):
        words = ["mariadb", "--batch", "--skip-column-names", "--unbuffered", "--force"]
        if options.socket:
            words.append(f"--socket={options.socket}")
        self.program = subprocess.Popen([*words, options.database], stdin=subprocess.PIPE, stdout=subprocess.PIPE,
                                        stderr=subprocess.STDOUT, text=True, bufsize=1)

    def ask(self, statement):
        self.program.stdin.write(statement + ";\nSELECT '=done=';\n")
        lines = []
        while (line := self.program.stdout.readline()) != "=done=\n":
            if not line:
                raise SystemExit("mariadb ended: " + "".join(lines))
            lines.append(line.rstrip("\n"))
        if any(line.startswith("ERROR") for line in lines):
            raise Refused("\n".join(lines))
        return lines

    def end(self):
        self.program.stdin.close()
        self.program.wait()
        self.program.stdout.close()

    def number(self, expression):
        """The number of the commit that the expression names, as 7 of the GTID 0-1-7; 0 before the first one."""
        answer = self.ask(f"SELECT {expression}")[0]
        return int(answer.split("-")[2]) if answer else 0

    def value(self, key, suffix=""):
        found = self.ask(f"SELECT value FROM pairs WHERE name = '{key}'{suffix}")
        return int(found[0]) if found else None

    def put(self, key, value):
        self.ask(f"REPLACE INTO pairs VALUES ('{key}', {value})")

    def make_table(self, values):
        """The table anew, with values from before the run."""
        self.ask("DROP TABLE IF EXISTS pairs")
        self.ask("CREATE TABLE pairs (name VARCHAR(32) PRIMARY KEY, value BIGINT NOT NULL) ENGINE=InnoDB")
        for key, value in values:
            self.put(key, value)


def add_options(words):
    """How the server is reached; ~/.my.cnf has the user and the rest."""
    words.add_argument("--database", default="test")
    words.add_argument("--socket", default=os.environ.get("MYSQL_UNIX_PORT"), help="of the server, where it isn't the usual one")
