"""How a call is put in the words of the reference, and in those of the server: by what each symbol stands for on each side."""
import nfs4

from .symbols import Sym, lowered, written


class Unbound(Exception):
    """A symbol whose place gave nothing."""


class Wording:
    """What a play knows of the words of both sides."""

    def symbol(self, kind, word):
        """The symbol of a value of the reference, new where it has none."""
        if kind in ("change", "time", "fileid"):
            return Sym(kind, len(self.binds) + 1)
        return self.known.setdefault((kind, word), Sym(kind, len(self.known) + 1))

    def symbol_at(self, op, place, kind, word):
        """The symbol of a place of a reply, new where the script's source makes new ones."""
        if (op.id, place) not in self.binds:
            self.binds[op.id, place] = self.symbol(kind, word)
        return self.binds[op.id, place]

    def value(self, sym, side):
        if sym not in self.twin.values:
            raise Unbound(sym)
        return self.twin.values[sym][side]

    def lowered(self, op, side):
        """An operation's fields in the words of one side (0 the reference, 1 the server)."""
        fields = lowered(op.fields, lambda sym: self.value(sym, side), lambda ahead: self.number(op, ahead, side))
        if side and op.name == "EXCHANGE_ID":
            mine = f"{self.server.nonce}.{self.server.serial}."
            fields = [(key, joined(mine, word) if key == "owner" else word) for key, word in fields]
        if side and op.name == "READDIR" and isinstance(op.get("cookie"), Sym) and not int(op.get("cookie_verf", "0x0"), 16):
            fields = [(key, self.twin.verifiers.get(op.get("cookie"), word) if key == "cookie_verf" else word) for key, word in fields]
        return fields

    def number(self, op, ahead, side):
        if op.name == "SEQUENCE":
            return self.twin.slots.get((op.get("sessionid"), op.get("slot_id", "0")), 0) + ahead
        return self.twin.bases.get(op.get("clientid"), (1, 1))[side] + ahead

    def server_word(self, op, name):
        return dict(self.lowered(op, 1)).get(name, "0")

    def reference_word(self, op, name):
        return dict(self.lowered(op, 0)).get(name)

    def owner(self, op):
        """The owner of the client whose session or id an operation names."""
        pair = self.twin.values.get(op.get("sessionid") or op.get("clientid"))
        return self.twin.owners.get(int(pair[0][:18], 0)) if pair else None

    def sequence_id(self, mine):
        """The number that a SEQUENCE of the server has to answer, where the reference answers this one."""
        return mine

    def caller(self, step):
        """Half of the session's id in the reference, which tells clients apart."""
        session = step.sequence and step.sequence.get("sessionid")
        return self.twin.values[session][0][:18] if session in self.twin.values else None

    def record(self, sent, side, grant=None, operations=None):
        made = []
        for op in sent.operations if operations is None else operations:
            fields = self.lowered(op, side)
            if grant and op.name == "CREATE_SESSION":
                fields = adopted(fields, grant)
            made.append(written(op.name, fields))
        step = sent.step
        return nfs4.compound(sent.xid, made, step.uid, step.gid, step.gids, nfs4.meant(step.tag), step.minor)


def adopted(fields, grant):
    """The fields of CREATE_SESSION that ask for no more than was granted elsewhere."""
    return [(key, str(min(int(word, 0), grant[key])) if key in grant and key != "fore_hdr_pad_size" else word) for key, word in fields]


def joined(prefix, owner):
    """An owner of this tool's own, which is as long as one can be where the script's is."""
    data = prefix.encode() + nfs4.meant(owner)
    return nfs4.shown(data[:1024] if len(nfs4.meant(owner)) <= 1024 else data)
