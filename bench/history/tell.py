"""Has the members of a copy of the crates tell what they do: tell.py FOLDER. Each call of a member writes a line of its history, and the lines of a
turn go to standard output before anything else of the turn leaves the program. The copy is built without a proof. It fails where a text that is
changed isn't there just once."""
import os
import shutil
import sys

MEMBER, GATEWAY, LINKS, SERVE = "group_member", "member_gateway", "member_links", "member_serve"
OUTCOME = "&out.settled, &self.node"
EDITS = [
    (MEMBER, "lib", "mod handing;\n", "mod handing;\npub mod history;\n"),
    (MEMBER, "member", "use crate::own_callers::OwnCallers;\n", "use crate::history::History;\nuse crate::own_callers::OwnCallers;\n"),
    (MEMBER, "member", "    pub(crate) alloc: Global,\n", "    pub history: History,\n    pub(crate) alloc: Global,\n"),
    (MEMBER, "member", "        Ok(Member {\n", "        Ok(Member {\n            history: History::new(alloc, shape),\n"),
    (MEMBER, "calling", "        self.callers.begin(caller, op);", "        self.history.begin(caller, &op);\n        self.callers.begin(caller, op);"),
    (MEMBER, "calling", "        self.callers.give_up(caller);",
     "        self.history.counted(b\"give_up\", u64::from(caller));\n        self.callers.give_up(caller);"),
    (MEMBER, "calling", "            Some(told) => told,\n",
     "            Some(told) => {\n                self.history.shown(caller, ping, &told);\n                told\n            }\n"),
    (MEMBER, "calling", "        let _ = self.callers.end(caller);",
     "        self.history.counted(b\"let_go\", u64::from(caller));\n        let _ = self.callers.end(caller);"),
    (MEMBER, "asking", "        self.callers.ask(caller, of);\n",
     "        self.history.request(b\"send\", of, &request);\n        self.callers.ask(caller, of);\n"),
    (MEMBER, "asking", "        self.callers.trace(caller, at);\n        Request::new(caller, call, Wish::Trace(partition))",
     "        self.callers.trace(caller, at);\n        let request = Request::new(caller, call, Wish::Trace(partition));\n"
     "        self.history.request(b\"send\", at, &request);\n        request"),
    (MEMBER, "asking", "        self.callers.ask(caller, self.words.name());",
     f"        self.history.asked(caller, number, &out.answer, {OUTCOME});\n        self.callers.ask(caller, self.words.name());"),
    (MEMBER, "asking", "        self.callers.trace(caller, self.words.name());",
     "        self.history.traced(caller, call, partition.0, &answer);\n        self.callers.trace(caller, self.words.name());"),
    (MEMBER, "serving", "        self.parked.push(request)",
     "        self.history.request(b\"read\", from, &request);\n        self.parked.push(request)"),
    (MEMBER, "serving", "        let told = told_to(",
     f"        self.history.treated(request, &out.answer, {OUTCOME});\n        let told = told_to("),
    (MEMBER, "receiving", "        Ok(Received::Made(out.settled))",
     f"        self.history.received(from, message, {OUTCOME});\n        Ok(Received::Made(out.settled))"),
    (MEMBER, "handing", "            return None;\n        }\n        self.node.hand_out(to)",
     "            return None;\n        }\n        let message = self.node.hand_out(to)?;\n        self.history.handed(to, &message);\n        Some(message)"),
    (MEMBER, "taking", "        self.words.take(x);", f"        self.history.took(x, {OUTCOME});\n        self.words.take(x);"),
    (MEMBER, "taking", "        let _ = self.node.flush()?;", "        let _ = self.node.flush()?;\n        self.history.word(b\"flush\");\n        self.history.end();"),
    (MEMBER, "learning", "        self.callers.learn(told, self.signs.pinged());",
     "        self.history.told(from, &told);\n        self.callers.learn(told, self.signs.pinged());"),
    (MEMBER, "learning", "        let told = told_reply(caller, call, self.node.collect(caller, call));",
     "        let answer = self.node.collect(caller, call);\n        self.history.collected(caller, call, &answer);\n"
     "        let told = told_reply(caller, call, answer);"),
    (MEMBER, "saying", "        self.words.cut(x);", "        self.history.of(b\"cut\", x);\n        self.words.cut(x);"),
    (MEMBER, "saying", "        self.words.hear(from, set);",
     "        self.history.word(b\"hear\");\n        self.history.process(from);\n        self.history.members(set);\n        self.words.hear(from, set);"),
    (MEMBER, "saying", "        self.words.permit();",
     "        self.words.permit();\n        self.history.word(b\"permit\");\n        self.history.members(&self.words.all_cut());"),
    (MEMBER, "signing", "        self.signs.ping()\n",
     "        let ping = self.signs.ping();\n        self.history.word(b\"ping\");\n        self.history.number(ping);\n"
     "        self.history.members(to);\n        ping\n"),
    (MEMBER, "signing", "        self.signs.count(", "        self.history.sign(b\"count\", from, ping);\n        self.signs.count("),
    (GATEWAY, "steps", "        self.member.say()\n",
     "        let set = self.member.say();\n        self.member.history.word(b\"say\");\n        self.member.history.members(&set);\n        set\n"),
    (GATEWAY, "steps", "        Some(self.member.pong(from, ping))",
     "        self.member.history.sign(b\"pong\", from, ping);\n        Some(self.member.pong(from, ping))"),
    (GATEWAY, "links", "    fn now(&self) -> u64;\n", "    fn now(&self) -> u64;\n\n    fn tell(&mut self, text: &[u8]);\n"),
    (GATEWAY, "gateway", "        self.work.send(links);\n",
     "        self.work.send(links);\n        if !self.work.member.history.text.is_empty() {\n"
     "            self.work.member.history.counted(b\"turn\", links.now());\n            links.tell(&self.work.member.history.text);\n"
     "            self.work.member.history.text.clear();\n        }\n"),
    (LINKS, "links", "pub struct MemberLinks {\n", "pub struct MemberLinks {\n    pub history: Vec<u8>,\n"),
    (LINKS, "links", "        MemberLinks {\n", "        MemberLinks {\n            history: Vec::new(alloc),\n"),
    (LINKS, "frames", "    fn has_room(&self, to: u32) -> bool {\n",
     "    fn tell(&mut self, text: &[u8]) {\n        let _ = self.history.extend_from_slice(text);\n    }\n\n"
     "    fn has_room(&self, to: u32) -> bool {\n"),
    (SERVE, "report", "    fn line(&self, level: Level, text: &str);\n", "    fn line(&self, level: Level, text: &str);\n\n    fn history(&self, text: &[u8]);\n"),
    (SERVE, "turning", "        self.links.write_out();",
     "        self.report.history(&self.links.history);\n        self.links.history.clear();\n        self.links.write_out();"),
    ("cocytus_main", "person", "    fn line(&self, level: Level, text: &str) {\n",
     "    fn history(&self, text: &[u8]) {\n        let _ = write_all(&mut WriteEdge::new(self.rt.stdout()), text);\n    }\n\n"
     "    fn line(&self, level: Level, text: &str) {\n"),
]


def main(folder):
    here = os.path.dirname(os.path.abspath(__file__))
    shutil.copy(os.path.join(here, "history.rattle"), os.path.join(folder, "crates", MEMBER, "src", "history.rt"))
    for crate, name, old, new in EDITS:
        change(os.path.join(folder, "crates", crate, "src", name + ".rt"), old, new)
    with open(os.path.join(folder, "crates.txt")) as text:
        line = next(line for line in text if line.startswith(MEMBER + ":"))
    change(os.path.join(folder, "crates.txt"), line, line.rstrip("\n") + " wire_codec crc32c scenario_text\n")


def change(path, old, new):
    """One text of a file becomes another."""
    with open(path) as text:
        content = text.read()
    if content.count(old) != 1:
        sys.exit(f"{path}: not just once there: {old!r}")
    with open(path, "w") as text:
        text.write(content.replace(old, new))


main(sys.argv[1])
