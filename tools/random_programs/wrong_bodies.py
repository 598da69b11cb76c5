"""Wrong bodies of searches: edits of crates/*/must-fail, and some of searches of which a proof says less. Random programs have to find those of PAGES and OWN; few
of them reach what those of RARE turn, which the prover refuses."""

PAGES = """cp_merged/later-word-kept cp_merged/one-choice-less cp_merged/states-by-sum cp_merged/output-before-forgotten
cp_ends/later-parent-kept cp_ends/half-the-steps-of-a-round cp_ends/choice-of-the-first-process cp_ends/leg-not-seen
cp_at_once/error-at-once cp_at_once/enter-at-once
cp_waits/inside-not-seen cp_waits/waits-at-the-first-moment-alone
cp_waiting_ends/waits-of-the-first-schedule-alone cp_walk/choices-left-out cp_walk/rows-of-another-node
cp_layers/word-of-the-next-state cp_stretches/another-let-in cp_stretches/unstarted-waits
cp_effects/called-component-left-out""".split()

RARE = """cp_at_once/place-overlooked cp_waits/fairness-not-asked cp_waits/trap-that-is-left cp_walk/constants-alike cp_effects/left-monitor-left-out
cp_parts/pending-left-out""".split()

# (crate, file, old, new) by name, where no page has the edit.
OWN = {
    "cp_simplest/switches-not-counted": (
        "cp_simplest", "src/label.rt",
        "            switches: self.switches.saturating_add(u8::from(is_switch)),",
        "            switches: self.switches,"),
    "cp_simplest/who-could-not-stay-is-switched": (
        "cp_simplest", "src/search.rt",
        "        let is_switch = self.may_stay && process != self.last;",
        "        let is_switch = process != self.last;"),
}
