"""What tests/trusted-sabotage does to a copy of the checkout: by name the edits, and a text of the line that tests/trusted must say of them."""

# The files that are edited, and the texts in them that are replaced.
KIND, PROFILE, TEXT, PLAIN_CLIENT = (f"crates/sip_standard/specs/{it}.antt" for it in ("Kind", "Profile", "Text", "PlainClient"))
TEXTS, NAMING = "crates/sip_phases/specs/Texts.antt", "crates/sip_machine/specs/Naming.antt"
MACHINES, VERDICT_LIB, STANDARD_LIB = "docs/standard/MACHINES.md", "crates/sip_verdict/src/lib.rt", "crates/sip_standard/src/lib.rt"
VERDICT, FORMAT = (f"crates/sip_standard/src/{it}.rt" for it in ("verdict", "format"))
JUDGING, STAGE = (f"crates/sip_verdict/src/{it}.rt" for it in ("judging", "stage"))
# What stands above and below the definition IsFinal in Kind.antt, and the definition that is planted there.
HEAD = "use Rattle.sip_standard.specs.declared.kind.Kind.{Kind}\n"
ABOVE_FINAL = "-- a final response, section 7.2: 2xx to 6xx\n"
FINAL, END_OF_FINAL = "IsFinal code = (200 ≤ code) × ", "(code ≤ 699)\n\n-- a success"
PLANTED = "abbrev pub planted : ℕ → Type 0\nplanted code = code ≤ 699\n\n"
# What tests/trusted says of a form that it does not read.
UNREAD, UNREAD_MARK = "neither a definition nor imports", "a mark that is not read"
IN_VERDICT, IN_FORMAT = "`sip_standard/src/verdict.rt`", "`sip_standard/src/format.rt`"


def at(file, *changes):
    """Changes of one file, each as a text that stands there once and the text that replaces it."""
    return [(file, old, new) for old, new in changes]


def plant(above, mention="planted code", wanted="`planted`"):
    """Plants a definition in some form above IsFinal, which mentions it: tests/trusted has to list it by name, or to tell its form."""
    return at(KIND, (ABOVE_FINAL, above + ABOVE_FINAL), (FINAL + END_OF_FINAL, FINAL + END_OF_FINAL.replace("(code ≤ 699)", mention))), wanted


def planted_elsewhere(mention, uses, wanted, definition=PLANTED):
    """Plants a definition into Naming.antt, which IsFinal mentions by some path."""
    edits, _ = plant("", mention)
    return [*edits[1:], *at(KIND, (HEAD, uses + HEAD)), *at(NAMING, ("\n-- ", f"\n{definition}-- "))], wanted


def definition(file, old, new, wanted):
    """A change of a definition, and what is said of it."""
    return at(f"crates/sip_standard/specs/{file}.antt", (old, new)), wanted


def page(old, new, wanted):
    """A change of MACHINES.md, and what is said of it."""
    return at(MACHINES, (old, new)), wanted


def words(old, new, wanted):
    """A change of MACHINE_WORDS.md, and what is said of it."""
    return at("docs/standard/MACHINE_WORDS.md", (old, new)), wanted


def says(file, text):
    """What is said where a definition of this file says something that the page does not."""
    return f"the page does not say what {file}.antt says: {text}"


def tells(file, text):
    """What is said where the page tells something that no definition of this file says."""
    return f"{file}.antt does not say what the page says: {text}"


def law(crate, old, new, wanted):
    """A change of a law, and what is said of it."""
    return at(f"crates/{crate}/src/laws.rt", (old, new)), wanted


# Changes of definitions.
DEFINITIONS = {
    # A definition in a form that is not read, or in a place that is not looked at.
    "a definition in an anonymous module": plant("module _ {X : Type 0} where\n  " + PLANTED.replace("\np", "\n  p"), wanted=UNREAD),
    "a module in an anonymous module": plant("module _ {X : Type 0} where\n  module _ {Y : Type 0} where\n    " + PLANTED.replace("\np", "\n    p"), wanted=UNREAD),
    "a clause below an empty line": (at(KIND, ("kind_of (status", "\nkind_of (status")), UNREAD),
    "an indented line below an empty line": (at(KIND, ("method_named name =\n", "method_named name =\n\n")), "Kind.antt:12: " + UNREAD),
    "a name between two strings with a quote inside": (
        at(PROFILE, ('Lit "\\"" then Many', 'Lit "\\"" then planted then Many'), ("-- domainlabel", "abbrev pub planted : List ℕ → Type 0\nplanted text = text ≡ []\n\n-- domainlabel")),
        "`planted`",
    ),
    # A name that is spelled or set so that a reader of the text could miss it.
    "a name after two hyphens in a string": plant(PLANTED, '(let x : String = "-- a" in planted code)'),
    "mutual definitions": plant("abbrev mutual\n  pub planted : ℕ → Type 0\n  planted code = code ≤ 699\n\n", wanted=UNREAD),
    "a record that is opened": plant("open r use {limit as planted}\n\n", wanted=UNREAD),
    "a definition with a level": plant(PLANTED.replace(" : ℕ", " {ℓ} : {X : Type ℓ} → ℕ")),
    "a definition with a level and no mark": plant(PLANTED.replace("abbrev pub planted : ℕ", "planted {ℓ} : {X : Type ℓ} → ℕ"), wanted=UNREAD),
    "a signature over two lines": plant(PLANTED.replace(" : ℕ", "\n  : ℕ"), wanted=UNREAD),
    "a name of letters and marks": plant(PLANTED.replace("planted", "planted+more"), "planted+more code", "`planted+more`"),
    "a name with two hyphens": plant(PLANTED.replace("planted", "planted--more"), "planted--more code", UNREAD_MARK),
    # An operator, a helper and comments.
    "an operator of another file": planted_elsewhere(
        "(code upto 699)", "use Rattle.sip_machine.specs.Naming.{◌upto◌}\n", UNREAD, "infixr 50 ◌upto◌\nabbrev pub ◌upto◌ : ℕ → ℕ → Type 0\n(a upto b) = a ≤ b\n\n"),
    "the fixity of an operator": (at(TEXT, ("infixr 30 ◌or◌\n", ""), ("-- P Q:", "infixr 60 ◌or◌\n-- P Q:")), UNREAD),
    "a helper below where": plant(PLANTED, "within code\n  where\n    within : ℕ → Type 0\n    within n = planted n"),
    "a comment in braces": plant("{- a comment\nof two lines -}\n", "(code ≤ 699)", UNREAD_MARK),
    "a comment right after a bracket": plant("", "(--)\n    code ≤ 699)", UNREAD_MARK),
    "an escaped name": plant(PLANTED, "«planted» code", UNREAD_MARK),
    "a letter that looks like a space": plant("", "(code\u00a0≤ 699)", "a letter U+00A0"),
    "a letter that turns a comment round": plant("", "(code ≤ 699) -- a\u202eb", "a letter U+202E"),
    # A name by a path, and rules.
    "a name right after a dot": plant(PLANTED, "(λ n.planted n) code"),
    "a set of rules": plant(PLANTED + "pub ruleset R = planted\n\n", wanted=UNREAD),
    "a path without a use line": planted_elsewhere("Rattle.sip_machine.specs.Naming.planted code", "", "a path that is not read"),
    "a path from the package on": planted_elsewhere("package.Rattle.sip_machine.specs.Naming.planted code", "", "a path that is not read"),
    # Names that come by lines `use` of a form that is not read, or under the name of another.
    "a use line through another": planted_elsewhere("planted code", "use Rattle.sip_machine.specs.Naming as Q\nuse Q.{planted}\n", UNREAD),
    "a path through a module": planted_elsewhere("Naming.planted code", "use Rattle.sip_machine.specs.Naming\n", UNREAD),
    "a path through a folder": planted_elsewhere("Q.Naming.planted code", "use Rattle.sip_machine.specs as Q\n", UNREAD),
    "a use line of a path in braces": planted_elsewhere("planted code", "use Rattle.sip_machine.specs.{Naming.planted}\n", UNREAD),
    "a use line without braces": planted_elsewhere("planted code", "use Rattle.sip_machine.specs.Naming.planted\n", UNREAD),
    "all names of a module": planted_elsewhere("planted code", "use Rattle.sip_machine.specs.Naming.*\n", UNREAD),
    "a name under that of another": (at(PLAIN_CLIENT, ("{IsProvisional, IsFinal}", "{IsProvisional, IsSuccess as IsFinal}")), "under the name IsFinal, which others have"),
    "a name handed on under that of another": (
        at(PLAIN_CLIENT, ("Kind.{IsProvisional, IsFinal}", "Kind.{IsProvisional}\nuse Rattle.sip_phases.specs.Texts.{IsFinal}"))
        + at(TEXTS, ("use Rattle.std", "pub use Rattle.sip_standard.specs.Kind.{IsSuccess as IsFinal}\nuse Rattle.std")),
        UNREAD,
    ),
}

# Texts of the sources of the types, and what is planted beside them.
LAST = "    LogFault { entry: u64, reason: LogReason },\n}\n"
FAULT, USE_FAULT = "Malformed { entry: u64, fault: Fault }", "use crate::fault::Fault;"
VIEW = " {\n    ghost Value = { Verdict };\n\n    ghost view = { λ v. v };\n}\n"
TYPE = "/// What is planted.\npub struct Planted {\n    pub first: u8,\n}\n\n"
TOP_OF_STAGE = "//! "
# Changes of types.
TYPES = {
    # An `impl` that would change what a contract sees of a type.
    "an impl Model on a type": (at(VERDICT, (LAST, LAST + "\nimpl Model for Verdict" + VIEW)), IN_VERDICT),
    "an impl Model under the name From": (
        at(VERDICT, (USE_FAULT, USE_FAULT + "\nuse std::marker::Model as From;"), (LAST, LAST + "\nimpl From for Verdict" + VIEW)), IN_VERDICT),
    "an impl Model on another name of a type": (
        at(VERDICT, (LAST, LAST + "\npub type Said = Verdict;\n\nimpl Model for Said" + VIEW)), IN_VERDICT),
    "an impl Model in another file": (
        at(FORMAT, (TOP_OF_STAGE, "use crate::verdict::Verdict as Spoken;\n\nimpl std::marker::Model for Spoken" + VIEW + "\n" + TOP_OF_STAGE)), IN_FORMAT),
    "an impl in a module of a file": (
        at(VERDICT, (LAST, LAST + "\nmod inside {\n    impl Model for Verdict {\n        ghost Value = { Verdict };\n    }\n}\n")),
        IN_VERDICT,
    ),
    # A type that is not declared in the file that is read.
    "a type by its path": (
        at(VERDICT, (FAULT, FAULT.replace(" }", ", planted: crate::format::Planted }"))) + at(FORMAT, (TOP_OF_STAGE, TYPE + TOP_OF_STAGE)), "`Planted`"),
    "a type in a module of a file": (
        at(VERDICT, (FAULT, FAULT.replace(" }", ", planted: crate::format::inside::Planted }"))) + at(FORMAT, (TOP_OF_STAGE, "pub mod inside {\n    pub struct Planted(u8);\n}\n\n" + TOP_OF_STAGE)),
        IN_FORMAT,
    ),
    "a type through use lines in braces": (
        at(VERDICT, (USE_FAULT, "use crate::{format::{Planted}};\n" + USE_FAULT), (FAULT, FAULT.replace(" }", ", planted: Planted }"))) + at(FORMAT, (TOP_OF_STAGE, TYPE + TOP_OF_STAGE)),
        "`Planted`",
    ),
    # Lines that are not followed, and a second judge.
    "all types of a module": (at(VERDICT, (USE_FAULT, USE_FAULT + "\nuse crate::format::*;")), "* is not followed"),
    "a comment of another form": (at(VERDICT, ("//! What is said", "/* a comment */\n//! What is said")), IN_VERDICT),
    "a module from another file": (at(STANDARD_LIB, ("mod verdict;", '#[path = "format.rt"]\nmod verdict;')), "path is not followed"),
    "a type for some builds alone": (at(VERDICT, ("pub enum Verdict {", "#[cfg(any())]\npub enum Verdict {")), "cfg is not followed"),
    "a second judge": (at(STAGE, (TOP_OF_STAGE, "pub fn judge() -> bool\n    ensures { result ≡ true }\n{\n    true\n}\n\n" + TOP_OF_STAGE)), "not one function judge"),
    "a judge that is not handed on": (at(VERDICT_LIB, ("judging::{judge, judge_bytes}", "judging::{judge_bytes}")), "not one function judge"),
    "a macro in the contract": (
        at(JUDGING, ("IsVerdictOf input verdict)) }\n    ensures ok { OnOk result (R.has_failed reader.new ≡ false) }", "is_verdict!(input))) }\n    ensures ok { OnOk result (R.has_failed reader.new ≡ false) }")),
        "judge has another contract",
    ),
}

# The files of the functions whose contracts are compared.
SHOWING, JUDGES = "crates/sip_verdict/src/showing.rt", "crates/sip_standard/src/judges.rt"
LISTING, RUNNING = "crates/sip_verdict/src/listing.rt", "crates/sip_program/src/running.rt"
# Changes of contracts.
CONTRACTS = {
    # A premise more, or a clause less, of a public function.
    "a premise of show": (at(SHOWING, ("-> Result<Shown, ShowError>\n    ensures shown", "-> Result<Shown, ShowError>\n    requires { R.has_failed reader.old ≡ false }\n    ensures shown")), "show has another contract"),
    "a clause of judge_bytes less": (at(JUDGING, ("    ensures io { IsErrOf result JudgeError.Io → ⊥ }\n", "")), "judge_bytes has another contract"),
    "a clause of states_at less": (at(LISTING, ("    ensures ok { OnOk result (R.has_failed reader.new ≡ false) }\n", "")), "states_at has another contract"),
    "a clause of run less": (at(RUNNING, ("    ensures words { IsErrOf result Usage → IfSome (S.words system.old) (λ words. IsAskedBy words None) }\n", "")), "run has another contract"),
    "a clause of the trait less": (at(JUDGES, ("        ensures ok { OnOk result (R.has_failed reader.new ≡ false) }\n", "")), "judge has another contract"),
    # What is named and is not there, and what is there and is not named.
    "a function of the trait that there is not": (at(JUDGES, ("    fn show<R", "    fn shows<R")), "not one function shows"),
    "a definition that is gone": definition("Window", "-- the window of a timer that was set at s for d\nabbrev pub window_at : Times → ℕ → ℕ → Option (ℕ × Option ℕ)\nwindow_at p s d = Some (open_at p s d, Some (close_at p s d))\n", "", "- | `sip_standard/specs/Window.antt` | `open_at`, `close_at`, `window_at` |"),
    "a definition that nothing needs": plant(PLANTED, "(code ≤ 699)", "nothing needs planted"),
}

# Changes of tables, in the definitions, the pages and the words.
TABLES = {
    # A timer that is changed in the definition, or in the page.
    "timer K, in the definition": definition(
        "PlainClient", "(if reliable then 0 else p.t4)", "(if reliable then 0 else 64 * p.t1)", says("PlainClient", "no words for timer_window p (Completed")),
    "timer F, in the page": page("timer F: 64*T1 from", "timer F: T4 from", tells("PlainClient", "| trying | may end | timer F: T4 from")),
    "timer E in proceeding, in the definition": definition(
        "PlainClient", "interval = p.t2 })", "interval = p.t1 })", "does not say what the page says: | proceeding | the same bytes"),
    "timer E's close, in the definition": definition(
        "PlainClient", "sends_by p (Proceeding w) = if w.reliable then [] else close_at p w.set w.interval ∷ []\n", "", tells("PlainClient", "| proceeding | has to send")),
    # Sends that the transport refused, and where a machine ends.
    "refused sends of the plain client, in the definition": definition(
        "PlainClient", "λ x k. true", "λ x k. false", says("PlainClient", "A send that the transport refused counts as sent.")),
    "refused sends of the plain client, in the page": page("| 8 | any |", "| 8 | idle, trying |", tells("PlainClient", "| idle, trying | a send that would be allowed")),
    "where the plain client ends, in the definition": definition("PlainClient", "ended = Ended;", "ended = Idle;", says("PlainClient", "The **end** leads back to idle.")),
    "a phase of the plain client, in the page": page(
        "are idle (nothing was sent), trying, proceeding,", "are idle (nothing was sent), trying,", says("PlainClient", "The phases (`PlainClientPhase`) are")),
    # The same of the server.
    "timer J, in the definition": definition(
        "PlainServer", "if reliable then 0 else 64 * p.t1", "if reliable then 64 * p.t1 else 0", says("PlainServer", "no words for timer_window p (Completed")),
    "refused sends of the plain server, in the page": page(
        "In idle and trying nothing is owed. A send that the transport refused counts as sent.", "In idle and trying nothing is owed.",
        says("PlainServer", "A send that the transport refused counts as sent.")),
    "what the plain server owes, in the definition": definition(
        "PlainServer", "gains true final", "gains false final", tells("PlainServer", "| completed | a request is received | the same phase; the final response must")),
    "where the plain server ends, in the page": page(
        "idle. It may come while nothing must be sent.\n- The **last moment** is the earliest of the close of timer J",
        "ended.\n- The **last moment** is the earliest of the close of timer J", says("PlainServer", "The **end** leads back to idle.")),
    "timer A, in the definition": definition(
        "InviteClient", "interval = 2 * w.interval", "interval = min (2 * w.interval) p.t2", tells("InviteClient", "| calling | the same bytes are sent again")),
    "the wait after a CANCEL, in the definition": definition(
        "InviteClient", "open_at p first (64 * p.t1)", "open_at p first (64 * p.t2)", tells("InviteClient", "| proceeding, cancelled | may end | from 64*T1")),
    "timer D, in the page": page("timer D: from 32 s after", "timer D: from 64*T1 after", tells("InviteClient", "| completed | may end | timer D: from 64*T1")),
    "refused sends of the INVITE client, in the definition": definition(
        "InviteClient", "ends_refused (Completed reliable request set) (Request Ack) = true\n", "", tells("InviteClient", "| completed | an ACK is refused")),
    "refused sends of the INVITE client, in the page": page(
        "| 14 | completed | an ACK is refused where it could be sent | ended |\n", "", says("InviteClient", "| completed | an ACK is refused where")),
    "a second CANCEL, in the definition": definition(
        "InviteClient", "(Proceeding reliable request (Some first), keeps)", "(Proceeding reliable request (Some e.moment), keeps)",
        says("InviteClient", "| proceeding, cancelled | a CANCEL is sent | proceeding, cancelled at this moment |")),
    "timer A's close, in the page": page("| calling | has to send | over an unreliable transport by the close of timer A |\n", "", says("InviteClient", "| calling | has to send")),
    "200 ms, in the definition": definition(
        "InviteServer", "close_at p set 200", "close_at p set 2000", tells("InviteServer", "| proceeding without a last response | has to send | by the close of 200 ms")),
    "timer I, in the page": page("timer I: T4 from the ACK on; 0 over a reliable transport", "timer I: T4 from the ACK on", says("InviteServer", "| confirmed | may end | timer I")),
    "timer G, in the page": page("at most T2 |\n| 11 | any", "without a cap |\n| 11 | any", tells("InviteServer", "| completed | the final response is sent again")),
    "what the INVITE server owes, in the page": page("| 11 | any |", "| 11 | proceeding |", tells("InviteServer", "| proceeding | a response that is owed is sent")),
    "a file that is not there, in a page": (at("docs/standard/VERDICT.md", ("`VerdictOf`, `Entries`", "`VerdictOf`, `EntryReading`")), "there is no file EntryReading.antt"),
    "a section without its file": page("(`Figure`, `Transaction`;", "(`Figure`;", "no section for crates/sip_standard/specs/Transaction.antt names Transaction"),
    "a row of no form, in the page": page("| 11 | any |", "|12| idle | a 2xx is sent | accepted |\n| 11 | any |", tells("InviteServer", "|12| idle")),
    "a row that stands twice, in the page": page("| 11 | any |", "| 11 | accepted | a 2xx is sent | the same phase |\n| 11 | any |", tells("InviteServer", "| accepted | a 2xx")),
    "a number that is left out, in the page": page("| 11 | any |", "| 12 | any |", "the rows are not numbered one after another"),
    "a 2xx by RFC 3261 in calling, in the definition": definition(
        "InviteClient3261", "(y ≡ (Ended, drops)))\n    ⊎ (IsUnsuccessful code × (y ≡ (Completed w.", "(y ≡ (Accepted e.moment, keeps)))\n    ⊎ (IsUnsuccessful code × (y ≡ (Completed w.",
        says("InviteClient3261", "| calling | a 2xx is received | accepted |")),
    "a 2xx by RFC 3261 in proceeding, in the page": page(
        "| 4 | proceeding | a 2xx is received | ended; what was owed is dropped |", "| 4 | proceeding | a 2xx is received | accepted |",
        tells("InviteClient3261", "| proceeding | a 2xx is received | accepted |")),
    "the debts at a 2xx by RFC 3261, in the definition": definition(
        "InviteClient3261", "(IsSuccess code × (y ≡ (Ended, drops)))\n    ⊎ (IsUnsuccessful code × (y ≡ (Completed reliable",
        "(IsSuccess code × (y ≡ (Ended, keeps)))\n    ⊎ (IsUnsuccessful code × (y ≡ (Completed reliable", says("InviteClient3261", "| proceeding | a 2xx is received | ended |")),
    "the debts at a first response, in the definition": definition(
        "PlainServer", "Sends p (Trying reliable) (Response code) e y =\n    (IsProvisional code × (y ≡ (Proceeding reliable e.text, keeps)))",
        "Sends p (Trying reliable) (Response code) e y =\n    (IsProvisional code × (y ≡ (Proceeding reliable e.text, softens)))",
        says("PlainServer", "| trying | a 1xx is sent | proceeding with it as the last one; what was owed is softened |")),
    "a 486 by RFC 3261, in the definition": definition(
        "InviteClient3261", "\n    ⊎ (IsUnsuccessful code × (y ≡ (Completed reliable request e.moment, gains true e.text)))", "",
        tells("InviteClient3261", "| proceeding | a 3xx to 6xx is received")),
    "the timers of the client by RFC 3261, in the definition": definition(
        "InviteClient3261", "{ Receives = Receives }", "{ Receives = Receives; sends_by = λ p x. [] }", says("InviteClient3261", "no words for invite_client_3261")),
    "whose rows the client by RFC 3261 has": definition(
        "InviteClient3261", "specs.InviteClient as corrected", "specs.InviteServer as corrected",
        says("InviteClient3261", "no words for use Rattle.sip_standard.specs.InviteServer as corrected")),
    "a 2xx of the server by RFC 3261, in the definition": definition(
        "InviteServer3261", "(Passed, drops)", "(Passed, softens)", says("InviteServer3261", "| proceeding | a 2xx is sent | passed; what was owed is softened |")),
    "a 2xx of the server by RFC 3261, in the page": page(
        "| a 2xx is sent | passed; what was owed is dropped |", "| a 2xx is sent | accepted |", tells("InviteServer3261", "| proceeding | a 2xx is sent | accepted |")),
    "a row of the server by RFC 3261 less, in the page": page(
        "| 3 | passed | a 2xx is sent | the same phase |\n", "", says("InviteServer3261", "| passed | a 2xx is sent | the same phase |")),
    "who may repeat a 2xx, in the definition": definition(
        "InviteServer3261", "remembers (Accepted set) =", "remembers (Completed reliable final set repeat interval) =", says("InviteServer3261", "no words for remembers (Completed")),
    "the timers of the server by RFC 3261, in the definition": definition(
        "InviteServer3261", "timer_window p Passed = None", "timer_window p Passed = Some (0, None)", says("InviteServer3261", "no words for timer_window p Passed")),
    "the timers of the server by RFC 3261, in the page": page(
        "has no end and no last moment", "has no last moment", says("InviteServer3261", "Passed owes nothing, has no end")),
    "refused sends of the server by RFC 3261, in the definition": definition(
        "InviteServer3261", "λ x k. false", "λ x k. true", says("InviteServer3261", "no words for ends_refused = λ x k. true")),
    "a clause for all that stands before others": definition(
        "InviteClient", "ends_refused x (Request Invite) = true\n", "ends_refused x k = false\nends_refused x (Request Invite) = true\n",
        says("InviteClient", "no words for never: ends_refused x (Request Invite) = true")),
    "a clause for all messages that stands before others": definition(
        "InviteServer3261", "Receives p Passed (Request Invite) e y =", "Receives p Passed k e y = ⊥\nReceives p Passed (Request Invite) e y =",
        says("InviteServer3261", "no words for never: Receives p Passed (Request Invite)")),
    "what a clause calls the parts of a phase": definition(
        "InviteServer", "Sends p (Completed reliable final set repeat interval)", "Sends p (Completed reliable final repeat set interval)",
        says("InviteServer", "| no words for in Completed reliable final repeat set interval |")),
    "a word of the tables": words("IsSuccess code ⇒ a 2xx is received", "IsSuccess code ⇒ a 3xx is received", says("InviteClient", "| calling | a 3xx is received | accepted |")),
    "words that nothing has": words("drops ⇒", "hardens ⇒ what was owed is due\ndrops ⇒", "no definition of all has hardens"),
}

# Changes of laws.
LAWS = {
    "a law that is private": law("sip_states", "pub fn by_waiting_and_stepping()", "fn by_waiting_and_stepping()", "the law by_waiting_and_stepping is not public"),
    "a law that its crate keeps": (at(VERDICT_LIB, ("a_legal_log_has_runs, ", "")), "the law a_legal_log_has_runs is not public"),
    "laws in a module that is private": (at("crates/sip_message/src/lib.rt", ("pub mod laws;", "mod laws;")), "the law bytes_have_one_reading is not public"),
    "a law that is gone": law(
        "sip_key", "pub fn keys_are_equal_by_their_parts()", "pub fn keys_are_the_same()", "- | `sip_key/src/laws.rt` | `sip_key::laws::keys_are_equal_by_their_parts` | 1 |"),
    "a law with a clause less": law(
        "sip_log", "    ensures either { (input : List ℕ) (p : Times) (items : List Item) (end : LogEnd) → LacksHeader input → LogSays input p items end → ⊥ }\n", "", "- | `sip_log/src/laws.rt` | `sip_log::an_input_has_one_log` | 2 |"),
    "a law for its crate alone": law("sip_key", "pub fn keys_are_equal_by", "pub(crate) fn keys_are_equal_by", "the law keys_are_equal_by_their_parts is not public"),
    "a law without a clause": law("sip_log", "    ensures { (input : List ℕ)", "    requires { (input : List ℕ)", "stands among laws and is none"),
}
# The files of the two programs and of the platform, and changes of their lines.
MAIN, SURVEYOR, PLATFORM = "crates/siptrace/src/main.rt", "crates/sipsurvey/src/main.rt", "crates/sip_platform/src/platform.rt"
LINES = {
    "a member of the platform": (at(PLATFORM, ("    type File = File;\n", "    type File = File;\n\n    fn moment(&self) -> u64 {\n        0\n    }\n")), "+ fn moment"),
    "a file under another name": (at(PLATFORM, ("        File::open(&self.rt, path)\n", "        File::open(&self.rt, path).or_else(|_| File::open(&self.rt, \"other\"))\n")), "+ File::open(&self.rt, path).or_else"),
    "a line of main": (at(MAIN, ("    ExitCode::from(status)\n", "    let status = status.min(4);\n    ExitCode::from(status)\n")), "+ let status = status.min(4);"),
    "another program": (at(MAIN, ("program(rt.alloc(), &mut system, &mut output, &mut errors)", "program(rt.alloc(), &mut system, &mut errors, &mut errors)")), "+ program(rt.alloc(), &mut system, &mut errors"),
    "a line of the other main": (at(SURVEYOR, ("    let input = rt.stdin();\n", "    let input = rt.stdin().take(1_000_000);\n")), "+ let input = rt.stdin().take(1_000_000);"),
    "a line of one main in the other": (
        at(SURVEYOR, ("    ExitCode::from(program(", "    let status = program(rt.alloc(), &mut system, &mut output, &mut errors);\n    ExitCode::from(status)\n    ExitCode::from(program(")),
        "+ ExitCode::from(status)"),
    "another platform": (at("crates/sip_platform/src/lib.rt", ("pub use platform::StdPlatform;", "pub use other::StdPlatform;")), "+ pub use other::StdPlatform;"),
}
# All changes, by name.
ALL = {**DEFINITIONS, **TYPES, **CONTRACTS, **TABLES, **LAWS, **LINES}
