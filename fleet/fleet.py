"""What the scripts of this folder share: a fleet's folder, and what its fleet.toml says.

    DIR/scenario.toml     the scenario; without its seed where a ring is there
    DIR/ring              the public keys of all actors, as `spire keys` prints them: then each station has its own key alone
    DIR/keys/ACTOR.key    that key, as `spire key` prints it (`fleet/deal`); nobody else's
    DIR/fleet.toml        may be left out, and so may each of its keys (DEFAULTS)
    DIR/keep/ACTOR.keep   what a station keeps; never copied back, never shared
    DIR/log/ACTOR.notes   its notes, each with the time at which it was put; ACTOR.log, what went wrong around it; broker.log
    DIR/run/              pids, and for each station the pipe ACTOR.in that local lines are written to, and ACTOR.id, the name
                          under which the broker keeps what came for it while it was away"""

import os
import secrets
import shlex
import subprocess
import sys
import tomllib

HERE = os.path.dirname(os.path.realpath(__file__))
DEFAULTS = {
    'group': 'spire',        # what topics begin with
    'host': '127.0.0.1',     # where the broker is
    'port': 18830,
    'broker': True,          # whether `start` starts one, on the loopback address and without passwords
    'actors': [],            # whose stations are here; none said: all of the scenario
    'tick_ms': 100,          # between two ticks of a master
    'poll_ms': 1000,         # between two polls of a proxy; 0: a bridge polls
    'noted_by': 'station',   # who tells of writes and notices: 'merge' has each unit look them up in its station's file
    'options': [],           # more words for mosquitto_sub and mosquitto_pub; {actor} is the station's name, {dir} this folder's
    'programs': {},          # a station's program, where it isn't SPIRE
}


class Fleet:
    """A fleet's folder on this machine."""

    def __init__(self, folder):
        self.folder = os.path.realpath(folder)
        self.scenario = self.path('scenario.toml')
        said = {}
        if os.path.exists(self.path('fleet.toml')):
            with open(self.path('fleet.toml'), 'rb') as it:
                said = tomllib.load(it)
        for key in said:
            if key not in DEFAULTS:
                sys.exit(f'{self.path("fleet.toml")}: there is no key {key}')
        for key, value in {**DEFAULTS, **said}.items():
            setattr(self, key, value)

    def path(self, *parts):
        return os.path.join(self.folder, *parts)

    @property
    def ring(self):
        return self.path('ring')

    def key(self, actor):
        return self.path('keys', f'{actor}.key')

    def station(self, actor):
        """The words of a call of a station: by its own key, where there is a ring, else by the scenario's seed."""
        own = [self.ring, self.key(actor)] if os.path.exists(self.ring) else []
        return [*self.program(actor), 'station', self.scenario, actor, self.keep(actor), *own]

    def keep(self, actor):
        return self.path('keep', f'{actor}.keep')

    def pipe(self, actor):
        return self.path('run', f'{actor}.in')

    def notes(self, actor):
        return self.path('log', f'{actor}.notes')

    def pid_file(self, name):
        return self.path('run', f'{name}.pid')

    def client_id(self, actor):
        """The name under which the broker keeps what came for a station. Nobody else knows it: with it a client of another
        could take the connection over."""
        name = self.path('run', f'{actor}.id')
        if not os.path.exists(name):
            with open(name, 'w') as it:
                it.write(f'{self.group}-{actor}-{secrets.token_hex(16)}\n')
        with open(name) as it:
            return it.read().strip()

    def program(self, actor=None):
        """The words of a call of the program."""
        said = self.programs.get(actor) or os.environ.get('SPIRE') or os.path.join(HERE, '..', 'spire')
        return shlex.split(said)

    def all_actors(self):
        """Every actor of the scenario, by name; where there is a ring, those whose keys are here."""
        if os.path.exists(self.ring):
            return sorted(name[:-4] for name in os.listdir(self.path('keys')) if name.endswith('.key'))
        keys = subprocess.run([*self.program(), 'keys', self.scenario], stdout=subprocess.PIPE)
        if keys.returncode != 0:
            sys.exit(keys.returncode)
        return [line.split()[0] for line in keys.stdout.decode().splitlines()]

    def has_begun(self, actor):
        """Whether a station has kept anything."""
        return os.path.exists(self.keep(actor)) and os.path.getsize(self.keep(actor)) > 0

    def client(self, name, actor):
        """The words of a call of mosquitto_sub or mosquitto_pub."""
        return [name, '-h', self.host, '-p', str(self.port), '-q', '1', '-k', '10',
                *(word.replace('{actor}', actor).replace('{dir}', self.folder) for word in self.options)]

    def hear(self, actor, *words):
        """The words of a call of mosquitto_sub whose output `messages` reads."""
        return [*self.client('mosquitto_sub', actor), '-F', '%l %t\\n%p', *words]

    def give(self, actor, line):
        """Gives a station on this machine a line. One that is at most PIPE_BUF long lands whole."""
        data = line.encode() + b'\n'
        assert len(data) <= 4096, 'a local line is short'
        pipe = os.open(self.pipe(actor), os.O_WRONLY | os.O_NONBLOCK)
        try:
            os.write(pipe, data)
        finally:
            os.close(pipe)


def is_running(pid_file):
    """The pid in a file, if that process is there and is the unit or the broker whose file it is: after a boot any other may have
    that number."""
    run, name = os.path.split(pid_file.removesuffix('.pid'))
    last = [os.path.join(run, 'broker.conf')] if name == 'broker' else [os.path.dirname(run), name]
    try:
        with open(pid_file) as it:
            pid = int(it.read())
        with open(f'/proc/{pid}/cmdline', 'rb') as it:
            words = os.fsdecode(it.read()).split('\0')[:-1]
        return pid if words[-len(last):] == last else None
    except (OSError, ValueError):
        return None


def messages(stream):
    """Topic and payload of each whole message that mosquitto_sub puts: a line with the payload's length and the topic, then as many
    bytes and a line feed. So nothing in a payload can end it or begin another. (Nor in a topic: the broker takes none with a control
    character.)"""
    for line in stream:
        length, _, topic = line.decode(errors='replace').rstrip('\n').partition(' ')
        payload = stream.read(int(length)) if length.isdecimal() else b''
        if not stream.read(1):
            return
        yield topic, payload


def fleet_of(argv, least, most, usage):
    """The fleet that a script's first word names, and its other words."""
    if not least <= len(argv) - 1 <= most or not os.path.isdir(argv[1]):
        sys.exit(f'usage: {usage}')
    return Fleet(argv[1]), argv[2:]
