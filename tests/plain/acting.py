"""What the actions of slots and functors do."""

from .values import is_of_kind, refuse


class Acting:
    """The actions of a session's slots and functors, each by its word."""

    def act_when(self, action, frame):
        test = self.value(frame, action["when"])
        if not isinstance(test, bool):
            refuse("E22")
        return self.acts(action["then"] if test else action.get("else", []), frame)

    def act_set(self, action, frame):
        row = self.known(self.target(frame, action.get("of", "self")))
        return self.write(row, action["set"], self.value(frame, action["to"]), frame.depth)

    def act_emit(self, action, frame):
        number = self.target(frame, action.get("of", "self"))
        self.known(number)
        signal = self.signal(number, action["emit"])
        values = [self.value(frame, form) for form in action["args"]]
        kinds = self.methods(number)[signal].kinds
        if len(values) != len(kinds) or not all(map(is_of_kind, values, kinds)):
            refuse("E22")
        return [("emit", number, signal, values, frame.depth)]

    def act_connect(self, action, frame):
        sender, receiver = (self.target(frame, it) for it in (action.get("of", "self"), action["to"]))
        self.alive(sender)
        self.alive(receiver)
        signal = self.signal(sender, action["connect"])
        method = self.index(receiver, action["method"])
        self.connect(sender, signal, receiver, method, action)

    def act_disconnect(self, action, frame):
        sender = self.target(frame, action.get("of", "self"))
        self.known(sender)
        receiver = self.target(frame, action["to"]) if "to" in action else None
        if receiver is not None:
            self.known(receiver)
        signal = None if action["disconnect"] is None else self.signal(sender, action["disconnect"])
        method = self.index(receiver, action["method"]) if "method" in action else None
        self.disconnect_pattern(sender, signal, receiver, method)

    def act_delete(self, action, frame):
        return [("delete", self.alive(self.target(frame, action["delete"])).number, frame.depth)]

    def act_set_parent(self, action, frame):
        parent = action["setParent"]
        self.set_parent(self.target(frame, action.get("of", "self")), parent and self.target(frame, parent))

    def act_delete_later(self, action, frame):
        self.delete_later(self.alive(self.target(frame, action["deleteLater"])).number)

    def act_block(self, action, frame):
        self.known(self.target(frame, action.get("of", "self"))).blocked = action["block"]


ACTIONS = {
    "when": Acting.act_when,
    "set": Acting.act_set,
    "emit": Acting.act_emit,
    "connect": Acting.act_connect,
    "disconnect": Acting.act_disconnect,
    "deleteLater": Acting.act_delete_later,
    "delete": Acting.act_delete,
    "block": Acting.act_block,
    "setParent": Acting.act_set_parent,
}
