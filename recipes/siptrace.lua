-- Shows in Wireshark and tshark what siptrace said of a capture, from the notes that `annotate LOG > day.notes` wrote:
--   SIPTRACE_NOTES=day.notes wireshark -X lua_script:siptrace.lua day.pcap
-- Its fields are siptrace.word (breach, malformed, undecided; `of` at the other packets of such a transaction) and siptrace.note, for columns and
-- filters. A trouble is an error among the expert information.
-- The notes by the numbers of their packets: of each packet a list of words with their texts. A line of the file is FRAME, WORD and TEXT, with tabs between.
local notes = {}
local name = os.getenv("SIPTRACE_NOTES")
local file = name and io.open(name)
if file then
  for line in file:lines() do
    local frame, word, text = line:match("^(%d+)\t(%a+)\t(.*)$")
    if frame then
      local at = notes[tonumber(frame)] or {}
      at[#at + 1] = { word = word, text = text }
      notes[tonumber(frame)] = at
    end
  end
  file:close()
end

-- A protocol of its own, which stands below all others of a packet, with its two fields and its two kinds of expert information.
local siptrace = Proto("siptrace", "siptrace")
siptrace.fields.word = ProtoField.string("siptrace.word", "Word")
siptrace.fields.note = ProtoField.string("siptrace.note", "Note")
siptrace.experts.trouble = ProtoExpert.new("siptrace.trouble", "No transaction that keeps RFC 3261 section 17 can have gone on so", expert.group.PROTOCOL, expert.severity.ERROR)
siptrace.experts.of = ProtoExpert.new("siptrace.of", "Of a transaction in trouble", expert.group.SEQUENCE, expert.severity.CHAT)

-- Adds to a packet's tree a branch for each of its notes: the text, the fields, and a trouble as an error.
function siptrace.dissector(buffer, packet, tree)
  for _, note in ipairs(notes[packet.number] or {}) do
    local branch = tree:add(siptrace, note.text)
    branch:add(siptrace.fields.word, note.word)
    branch:add(siptrace.fields.note, note.text)
    branch:add_proto_expert_info(note.word == "of" and siptrace.experts.of or siptrace.experts.trouble, note.text)
  end
end

-- It comes after all other dissectors, at each packet.
register_postdissector(siptrace)
