-- AFDX (ARINC 664 Part 7) in Wireshark and tshark, with the verdicts of afdxmon's ledger beside the frames.
--
--   tshark -r flight_a.pcap -X lua_script:afdx.lua -o afdx.ledger:flight.ledger -Y 'afdx.policing == "excess"'
--   tshark -r in.pcap -X lua_script:afdx.lua -o afdx.ledger:transit.ledger -Y 'afdx.transit.latency > 400000'
--
-- docs/WIRESHARK.md describes the fields and the preferences. Without a ledger there are the fields of the
-- frame's own bytes. With one, the frame's line is looked up by its timestamp: the lines of a ledger rise by
-- it, so halving the file finds any of them with a few reads, and no index is made. In a ledger of transits
-- the line of a frame that came out may stand where its partner went in: lines about a time are kept by when
-- their frames came out. The program runs in Lua 5.1 to 5.4.

-- Wireshark refuses a second protocol of one name, as where this file is installed and named by lua_script as well.
local is_first, afdx = pcall(Proto, "afdx", "AFDX (ARINC 664 Part 7)")
if not is_first then return end
if set_plugin_info then
  set_plugin_info({ version = "1.0", description = "AFDX, with the verdicts of a ledger of afdxmon" })
end

local fields = {
  constant = ProtoField.uint32("afdx.constant", "Constant field", base.HEX),
  vl = ProtoField.uint16("afdx.vl", "Virtual link", base.DEC),
  name = ProtoField.string("afdx.name", "Name of the virtual link"),
  sn = ProtoField.uint8("afdx.sn", "Sequence number", base.DEC),
  network = ProtoField.string("afdx.network", "Network, by the source address"),
  tap = ProtoField.string("afdx.tap", "Network whose tap recorded the frame"),
  number = ProtoField.uint32("afdx.number", "Index in the network's recording, from 0", base.DEC),
  class = ProtoField.string("afdx.class", "Class"),
  policing = ProtoField.string("afdx.policing", "Policing"),
  integrity = ProtoField.string("afdx.integrity", "Integrity checking"),
  redundancy = ProtoField.string("afdx.redundancy", "Redundancy management"),
  verdict = ProtoField.string("afdx.verdict", "Verdict"),
  accepted = ProtoField.bool("afdx.accepted", "Accepted by a filter"),
  kept = ProtoField.uint32("afdx.kept", "Bytes in the capture", base.DEC),
  mask = ProtoField.uint8("afdx.mask", "Mask of the filters that accept", base.HEX),
  side = ProtoField.string("afdx.transit.side", "Side of the switch"),
  index = ProtoField.uint32("afdx.transit.number", "Index in its side's recording, from 0", base.DEC),
  outcome = ProtoField.string("afdx.transit.outcome", "Outcome"),
  partner = ProtoField.uint32("afdx.transit.partner", "Index of its partner on the other side", base.DEC),
  latency = ProtoField.int64("afdx.transit.latency", "Latency in nanoseconds", base.DEC),
  differs = ProtoField.uint32("afdx.transit.differs", "First byte that differs from its partner's", base.DEC),
  finding = ProtoField.string("afdx.finding", "Finding"),
  finding_kind = ProtoField.string("afdx.finding.kind", "Kind of the finding"),
  finding_level = ProtoField.string("afdx.finding.level", "Level of the finding"),
}
local list = {}
for _, field in pairs(fields) do list[#list + 1] = field end
afdx.fields = list

local no_line = ProtoExpert.new("afdx.no_line", "The ledger has no line for this frame",
  expert.group.SEQUENCE, expert.severity.WARN)
local other_line = ProtoExpert.new("afdx.other_line", "The ledger's line tells another virtual link or sequence number",
  expert.group.SEQUENCE, expert.severity.ERROR)
afdx.experts = { no_line, other_line }

local NETWORKS, SIDES = { "A", "B" }, { "before", "after" }
local BY_TIMESTAMP = 3
afdx.prefs.ledger = Pref.string("Ledger", "", "The ledger of afdxmon watch or transit; empty for none")
afdx.prefs.tap = Pref.enum("Tap", BY_TIMESTAMP, "Which network's recording this is. By timestamp: any, or a selection of both",
  { { 1, "A", 1 }, { 2, "B", 2 }, { 3, "timestamp", BY_TIMESTAMP } }, false)
afdx.prefs.side = Pref.enum("Side", BY_TIMESTAMP,
  "Of a ledger of transits: which recording this is. By timestamp: any, or a selection of both",
  { { 1, "before", 1 }, { 2, "after", 2 }, { 3, "timestamp", BY_TIMESTAMP } }, false)
afdx.prefs.findings = Pref.string("Findings", "", "What afdxmon report --json wrote; empty for none")
afdx.prefs.constant = Pref.string("Constant field", "03000000", "The first four bytes of the network's frames, in hexadecimal")

-- Timestamps ----------------------------------------------------------------------------------------------------------

-- Timestamps are decimal texts: nanoseconds since 1970 are more than Lua's numbers hold before Lua 5.3.
local function is_before(one, other)
  if #one ~= #other then return #one < #other end
  return one < other
end

-- The timestamp of a number of seconds and one of nanoseconds, which may be below 0 or above a second.
local function timestamp(seconds, nanoseconds)
  seconds, nanoseconds = seconds + math.floor(nanoseconds / 1e9), nanoseconds % 1e9
  if seconds < 0 then return "0" end
  if seconds == 0 then return string.format("%d", nanoseconds) end
  return string.format("%d%09d", seconds, nanoseconds)
end

-- The seconds and the nanoseconds of a decimal text of nanoseconds.
local function parts_of(text)
  return tonumber(text:sub(1, -10)) or 0, tonumber(text:sub(-9))
end

-- The timestamp so many nanoseconds, and seconds, after another.
local function later(stamp, nanoseconds, more)
  local seconds, rest = parts_of(stamp)
  return timestamp(seconds + (more or 0), rest + nanoseconds)
end

-- The ledger ----------------------------------------------------------------------------------------------------------

local NEWLINE = 10
local BLOCK = 65536        -- bytes that are read at once where lines follow each other
local PROBE = 512          -- bytes that hold at least one whole line
local COUNTS = 4194304     -- bytes that hold all lines of counts: 4096 virtual links of 800 bytes, and more
local LINE = "^\n(%d+) (%a+) (%d+) (%S+) (%S+) (%S+) (%S+) (%S+) (%S+) (%S+) (%S+)"

-- A ledger of watch. The length of version 3, behind the mask, Wireshark knows itself.
local OF_WATCH = {
  stamp = "^\n(%d+) [AB] ",
  line_at = function(text, place)
    local line = {}
    line.stamp, line.tap, line.number, line.vl, line.sn, line.class, line.policing, line.integrity,
      line.redundancy, line.kept, line.mask = text:match(LINE, place)
    return line.stamp and line
  end,
}

-- The ledgers that there are, by their first lines: the pattern of the timestamp of a frame's line, and its
-- fields.
local FORMS = {
  ["afdx-ledger 2\n"] = OF_WATCH,
  ["afdx-ledger 3\n"] = OF_WATCH,
  ["afdx-transit 1\n"] = {
    stamp = "^\n(%d+) %l+ ",
    line_at = function(text, place)
      local line = {}
      line.stamp, line.side, line.number, line.vl, line.sn, line.class, line.policing, line.outcome,
        line.other, line.latency, line.differs = text:match(LINE, place)
      return line.stamp and line
    end,
    is_of_transits = true,
  },
}

-- A ledger is an open file and a block of its whole lines. `text` begins with the newline before its first line, which
-- stands at byte `at` of the file. The last search was for `low` and ended at `place`, the newline before a line in `text`.
-- The newline before the first line of a frame is at byte `start`.
local Ledger = {}
Ledger.__index = Ledger

-- The whole lines among so many bytes from a byte of the file on, with the newline before them, and its place.
function Ledger:whole_lines(from, count)
  self.file:seek("set", from)
  local text = self.file:read(count) or ""
  local first, last = text:find("\n", 1, true), #text
  if not first then return "", from end
  while text:byte(last) ~= NEWLINE do last = last - 1 end
  return text:sub(first, last), from + first - 1
end

-- The timestamp of the last line of a frame in the block; nil where it has none.
function Ledger:last_stamp()
  local place = #self.text - 1
  while place > 0 do
    while place > 0 and self.text:byte(place) ~= NEWLINE do place = place - 1 end
    local stamp = place > 0 and self.text:match(self.form.stamp, place)
    if stamp then return stamp end
    place = place - 1
  end
end

-- Makes the block that of the lines behind a byte of the file.
function Ledger:load(from)
  self.text, self.at = self:whole_lines(from, BLOCK)
  self.low, self.place = "0", 1
  self.first, self.last = self.text:match(self.form.stamp), self:last_stamp()
end

-- Makes the block that of the lines behind it. False where no line of a frame follows.
function Ledger:load_next()
  if not self.last then return false end
  self:load(self.at + #self.text - 1)
  return self.first ~= nil
end

-- The names of the virtual links, by their identifiers as the ledger writes them. A ledger that is still written has none.
function Ledger:read_names()
  local names = {}
  local counts = self:whole_lines(math.max(self.size - COUNTS, 0), COUNTS)
  for link, name in counts:gmatch("\nlink (%d+) (%S+) ") do names[link] = name end
  return names
end

-- The window of a run of transit and its shift, by the ledger's second line.
local function run_of(text)
  local within, early, sign, shift = (text or ""):match("^run .* within (%d+) early (%d+) shift (%-?)(%d+) ")
  if not within then return nil end
  local seconds, nanoseconds = parts_of(shift)
  if sign == "-" then seconds, nanoseconds = -seconds, -nanoseconds end
  return { within = tonumber(within), early = tonumber(early), seconds = seconds, nanoseconds = nanoseconds }
end

-- The form of an open file, the run of a ledger of transits, and the byte at which its frames start. Nil for
-- no ledger.
local function head_of(file)
  local head = file:read(16) or ""
  for first, form in pairs(FORMS) do
    if head:sub(1, #first) == first then
      file:seek("set", #first)
      if not form.is_of_transits then return form, nil, #first - 1 end
      local second = file:read("*l")
      local run = run_of(second)
      if run then return form, run, #first + #second end
    end
  end
end

-- Opens a ledger. Otherwise nil, and why not.
function Ledger.open(path)
  local file, why = io.open(path, "rb")
  if not file then return nil, why end
  local form, run, start = head_of(file)
  if not form then
    file:close()
    return nil, path .. ": no ledger of version 2 or 3, and none of transits of version 1"
  end
  -- A buffer of the library's would read more than a probe needs, and at each seek anew.
  file:setvbuf("no")
  local ledger = setmetatable({ file = file, form = form, run = run, start = start }, Ledger)
  ledger.size = file:seek("end")
  ledger.names = ledger:read_names()
  ledger:load(start)
  return ledger
end

-- A byte of the file behind which the first line of a timestamp from `low` on begins, by halving.
function Ledger:halve(low)
  local above, below = self.start, self.size
  while below - above > PROBE do
    local middle = math.floor((above + below) / 2)
    local stamp = self:whole_lines(middle, PROBE):match(self.form.stamp)
    if stamp and is_before(stamp, low) then above = middle else below = middle end
  end
  return above
end

-- Whether the block has the first line of a timestamp from `low` on: a line before that one, and one from there on.
function Ledger:has_first(low)
  local from_start = self.at == self.start
  return self.first and (from_start or is_before(self.first, low)) and not is_before(self.last, low)
end

-- Makes the block one that has the first line of a timestamp from `low` on, if there is one. Frames mostly come in order,
-- so the block behind this one is looked at before the file is halved.
function Ledger:find_block(low)
  if self:has_first(low) then return end
  if self.last and is_before(self.last, low) and self:load_next() and not is_before(self.last, low) then return end
  self:load(self:halve(low))
end

-- Moves `place` to the first line of a timestamp from `low` on, or behind the block's lines of frames.
function Ledger:go_to(low)
  self:find_block(low)
  if is_before(low, self.low) then self.place = 1 end
  self.low = low
  local stamp = self.text:match(self.form.stamp, self.place)
  while stamp and is_before(stamp, low) do
    self.place = self.text:find("\n", self.place + 1, true)
    stamp = self.text:match(self.form.stamp, self.place)
  end
end

-- The lines of frames with a timestamp from `low` to `high`, one after the other.
function Ledger:between(low, high)
  self:go_to(low)
  local place = self.place
  return function()
    local stamp = self.text:match(self.form.stamp, place)
    if not stamp and self:load_next() then
      place, stamp = 1, self.first
    end
    if not stamp or is_before(high, stamp) then return nil end
    local line = self.form.line_at(self.text, place)
    place = self.text:find("\n", place + 1, true)
    return line
  end
end

-- Frames that came out -------------------------------------------------------------------------------------

-- The lines of frames that came out in a window of time, from `first` to `last` as they were recorded. That
-- of a pair stands where its partner went in, earlier or later by as much as the run allowed. `seen` has the
-- lines by their timestamps without the last four digits.
local Window = {}
Window.__index = Window

local AHEAD = 1e7          -- nanoseconds that a window goes on for after the time that is asked for, at least
local DIGITS = -5          -- the last of a timestamp's digits by which `seen` has it

-- A window on a ledger of transits, whose file it reads for itself: elsewhere than where frames went in.
function Window.open(path)
  local ledger = Ledger.open(path)
  return ledger and setmetatable({ ledger = ledger, first = "1", last = "0", seen = {} }, Window)
end

-- Takes a line as that of the frame that came out, if one did: its number, and its timestamp in the
-- recording.
function Window:take(line)
  if line.side == "before" then
    if line.other == "-" then return end
    line.stamp, line.side = later(line.stamp, tonumber(line.latency)), "after"
    line.number, line.other = line.other, line.number
  end
  local run = self.ledger.run
  line.stamp = later(line.stamp, -run.nanoseconds, -run.seconds)
  local key = line.stamp:sub(1, DIGITS)
  local lines = self.seen[key] or {}
  self.seen[key] = lines
  lines[#lines + 1] = line
end

-- Makes the window one from `low` to `high` at least. It goes on for as long again, so that frames in order
-- read each line twice at most.
function Window:move(low, high)
  if not is_before(low, self.first) and not is_before(self.last, high) then return end
  local run = self.ledger.run
  self.first, self.last, self.seen = low, later(high, run.within + run.early + AHEAD), {}
  local from = later(low, run.nanoseconds - run.within, run.seconds)
  local to = later(self.last, run.nanoseconds + run.early, run.seconds)
  for line in self.ledger:between(from, to) do self:take(line) end
end

-- The lines of the frames that came out from `low` to `high`, which are close to each other, one after the
-- other.
function Window:between(low, high)
  self:move(low, high)
  local found, keys = {}, { low:sub(1, DIGITS), high:sub(1, DIGITS) }
  if keys[1] == keys[2] then keys[2] = nil end
  for _, key in ipairs(keys) do
    for _, line in ipairs(self.seen[key] or {}) do
      if not is_before(line.stamp, low) and not is_before(high, line.stamp) then found[#found + 1] = line end
    end
  end
  local at = 0
  return function()
    at = at + 1
    return found[at]
  end
end

-- Which line is a frame's ---------------------------------------------------------------------------------------------

-- Wireshark gives Lua a time as a double, which is right within 128 nanoseconds. (A field extractor would be exact, and
-- make Wireshark build the tree of every frame.) A capture in microseconds has lost up to 999 more.
local INEXACT, LOST = 256, 1000

-- Whether a line without a virtual link may be a frame's. Captures keep parts of frames, so only `cut` tells of the bytes.
local IS_OF_CLASS = {
  cut = function(frame) return frame.held < frame.length end,
  runt = function(frame) return frame.length < 60 end,
  oversize = function(frame) return frame.length > 1514 end,
  foreign = function() return true end,
}

-- Whether a line may be a frame's, by virtual link and sequence number as far as the frame's bytes tell them.
local function agrees(line, frame)
  if line.vl == "-" then return IS_OF_CLASS[line.class](frame) end
  return (not frame.vl or tonumber(line.vl) == frame.vl) and (not frame.sn or tonumber(line.sn) == frame.sn)
end

-- How well a line of about the same timestamp fits a frame. A link counts most, then the network, then the index, which
-- tells in a whole recording which of two equal frames this is; then how close the timestamps are.
local function fitness(line, frame)
  local apart = math.abs(tonumber(line.stamp:sub(-9)) - frame.nanoseconds)
  local close = 1 - math.min(apart, 1e9 - apart) / 1e4
  return ((line.vl ~= "-") == frame.is_afdx and 8 or 0) + (line.tap == frame.network and 4 or 0)
    + (tonumber(line.number) == frame.number and 2 or 0) + close
end

-- The lines from a time before a frame to one after it, which are given in nanoseconds.
local function lines_about(source, frame, before, after)
  local low = timestamp(frame.seconds, frame.nanoseconds - before)
  return source:between(low, timestamp(frame.seconds, frame.nanoseconds + after))
end

-- The line of a frame in a recording of one network, or of one side, by its index there.
local function line_by_number(source, frame, where)
  for line in lines_about(source, frame, INEXACT, INEXACT) do
    if (line.tap or line.side) == where and tonumber(line.number) == frame.number then return line end
  end
end

-- The line that fits a frame of any recording best, by its timestamp: of all, or of one side.
local function line_by_timestamp(source, frame, side)
  local best
  for line in lines_about(source, frame, INEXACT, INEXACT + LOST) do
    local may_be = line.side == side and agrees(line, frame)
    if may_be and (not best or fitness(line, frame) > fitness(best, frame)) then best = line end
  end
  return best
end

-- The dissector -------------------------------------------------------------------------------------------------------

-- The findings of a report --------------------------------------------------------------------------------------------

-- The text that begins with the quote at a place of a JSON text, and the place behind it. Of an escape the character
-- stands that was escaped: findings have no other.
local function text_at(json, at)
  local parts, from = {}, at + 1
  while true do
    local stop = json:find('["\\]', from)
    parts[#parts + 1] = json:sub(from, stop - 1)
    if json:sub(stop, stop) == '"' then return table.concat(parts), stop + 1 end
    parts[#parts + 1] = json:sub(stop + 1, stop + 1)
    from = stop + 2
  end
end

-- Has each item between the bracket at a place and the one that closes it read. The place behind that.
local function items_at(json, at, close, read_item)
  at = json:find("%S", at + 1)
  while json:sub(at, at) ~= close do at = json:find("[^%s,]", read_item(at)) end
  return at + 1
end

-- The value at a place of a JSON text, and the place behind it.
local function value_at(json, at)
  at = json:find("%S", at)
  local first, held = json:sub(at, at), {}
  if first == '"' then return text_at(json, at) end
  if first == "{" then
    return held, items_at(json, at, "}", function(place)
      local name, behind = text_at(json, place)
      held[name], behind = value_at(json, json:find(":", behind, true) + 1)
      return behind
    end)
  end
  if first == "[" then
    return held, items_at(json, at, "]", function(place)
      held[#held + 1], place = value_at(json, place)
      return place
    end)
  end
  local word = json:match("^[%w.+-]+", at)
  return tonumber(word) or word == "true", at + #word
end

-- The findings of a report by their links, and under `all` those that name none.
local function findings_of(path)
  local file, why = io.open(path, "rb")
  if not file then return nil, why end
  local is_json, report = pcall(value_at, file:read("*a"), 1)
  file:close()
  if not is_json or type(report) ~= "table" or type(report.findings) ~= "table" then
    return nil, path .. " isn't what afdxmon report --json writes"
  end
  local by_link = { all = {} }
  for _, finding in ipairs(report.findings) do
    finding.from, finding.to = later(finding.from, -INEXACT - LOST), later(finding.to, INEXACT)
    local links = #finding.links > 0 and finding.links or { "all" }
    for _, link in ipairs(links) do
      by_link[link] = by_link[link] or {}
      table.insert(by_link[link], finding)
    end
  end
  return by_link
end

-- Is the frame of the finding's networks and time?
local function covers(finding, frame)
  local stamp = timestamp(frame.seconds, frame.nanoseconds)
  return not is_before(stamp, finding.from) and not is_before(finding.to, stamp)
    and (not frame.network or finding.networks:find(frame.network, 1, true) ~= nil)
end

-- The preferences' ledger, findings and constant field; the window on the frames that came out, of a ledger
-- of transits; whether a frame's line was found or its lack was told, and whether someone sees the frame's
-- tree.
local state = { ledger = nil, findings = nil, window = nil, constant = "", is_found = false, is_shown = false }

-- The bytes that the preference writes in hexadecimal.
local function constant_bytes(digits)
  if not digits:match("^%x%x%x%x%x%x%x%x$") then
    report_failure("afdx.constant: '" .. digits .. "' is not 8 hexadecimal digits")
    return ""
  end
  return (digits:gsub("%x%x", function(digit) return string.char(tonumber(digit, 16)) end))
end

-- Called before a recording is dissected, and again after a change of preferences: the ledger may be another one now.
function afdx.init()
  if state.ledger then state.ledger.file:close() end
  if state.window then state.window.ledger.file:close() end
  state.constant, state.ledger, state.window = constant_bytes(afdx.prefs.constant), nil, nil
  state.is_found, state.findings = false, nil
  if afdx.prefs.findings ~= "" then
    local findings, why = findings_of(afdx.prefs.findings)
    if not findings then report_failure("afdx.findings: " .. why) end
    state.findings = findings
  end
  if afdx.prefs.ledger == "" then return end
  local ledger, why = Ledger.open(afdx.prefs.ledger)
  if not ledger then report_failure("afdx.ledger: " .. why) end
  state.ledger = ledger
  if ledger and ledger.run then state.window = Window.open(afdx.prefs.ledger) end
end

-- What a frame's own bytes tell. The sequence number is the last byte, so a truncated frame has none; the upper three
-- bits of the source address's last byte name the network.
local function look_at(buffer, packet)
  local held = buffer:len()
  local time = packet.abs_ts
  local frame = { held = held, length = packet.len, number = packet.number - 1, seconds = math.floor(time) }
  frame.nanoseconds = math.floor((time - frame.seconds) * 1e9 + 0.5)
  local head = buffer:raw(0, math.min(held, 12))
  frame.is_afdx = #head >= 6 and head:sub(1, 4) == state.constant
  if #head >= 6 then frame.vl = head:byte(5) * 256 + head:byte(6) end
  if #head >= 12 then frame.network = NETWORKS[math.floor(head:byte(12) / 32)] end
  if held >= 1 and held == frame.length then frame.sn = buffer:raw(held - 1, 1):byte() end
  return frame
end

-- The line of a frame in a ledger of transits. Where no side is set, it is that whose line fits better.
local function line_of_transit(frame)
  local side = SIDES[afdx.prefs.side]
  if side then return line_by_number(side == "before" and state.ledger or state.window, frame, side) end
  local went_in = line_by_timestamp(state.ledger, frame, "before")
  local came_out = line_by_timestamp(state.window, frame, "after")
  if not (went_in and came_out) then return went_in or came_out end
  return fitness(came_out, frame) > fitness(went_in, frame) and came_out or went_in
end

local function line_of(frame)
  if state.window then return line_of_transit(frame) end
  local tap = NETWORKS[afdx.prefs.tap]
  if tap then return line_by_number(state.ledger, frame, tap) end
  return line_by_timestamp(state.ledger, frame)
end

-- Adding a field costs more than asking whether anything wants it: a tree that is shown, a filter, a column, an output.
-- (No question about the protocol as a whole would do: where fields alone are asked for, it says no.)
local function wants(tree, field)
  return state.is_shown or tree:referenced(field)
end

local function add_bytes(tree, buffer, frame)
  if wants(tree, fields.constant) then tree:add(fields.constant, buffer(0, 4)) end
  if wants(tree, fields.vl) then tree:add(fields.vl, buffer(4, 2)) end
  if frame.network and wants(tree, fields.network) then tree:add(fields.network, buffer(11, 1), frame.network) end
  if frame.sn and wants(tree, fields.sn) then tree:add(fields.sn, buffer(frame.held - 1, 1)) end
end

-- Adds what no byte of the frame tells.
local function add(tree, field, value)
  if wants(tree, field) then tree:add(field, value):set_generated() end
end

-- The link and the number of the ledger's line, as far as the frame's bytes haven't told them.
local function add_missing(tree, frame, line)
  if line.vl == "-" then return end
  if not frame.is_afdx then add(tree, fields.vl, tonumber(line.vl)) end
  if not (frame.is_afdx and frame.sn) then add(tree, fields.sn, tonumber(line.sn)) end
  local name = state.ledger.names[line.vl]
  if name then add(tree, fields.name, name) end
end

-- Adds a word of a line, where it has one.
local function add_word(tree, field, word)
  if word ~= "-" then add(tree, field, word) end
end

-- Adds a number of a line, where it has one.
local function add_number(tree, field, word)
  if word ~= "-" then add(tree, field, tonumber(word)) end
end

-- The fields of a line of watch, and the word with which judgement ended.
local function add_judgement(tree, line)
  add(tree, fields.tap, line.tap)
  add(tree, fields.number, tonumber(line.number))
  local verdict
  for _, judgement in ipairs({ "class", "policing", "integrity", "redundancy" }) do
    add_word(tree, fields[judgement], line[judgement])
    if line[judgement] ~= "-" then verdict = line[judgement] end
  end
  add(tree, fields.verdict, verdict)
  add(tree, fields.accepted, line.kept ~= "-")
  add_number(tree, fields.kept, line.kept)
  add(tree, fields.mask, tonumber(line.mask, 16))
  return verdict
end

-- The fields of a line of transit, and what a reader wants to see first of them.
local function add_transit(tree, line)
  add(tree, fields.side, line.side)
  add(tree, fields.index, tonumber(line.number))
  for _, word in ipairs({ "class", "policing", "outcome" }) do add_word(tree, fields[word], line[word]) end
  add_number(tree, fields.partner, line.other)
  add_number(tree, fields.differs, line.differs)
  if line.latency == "-" then return line.outcome end
  add(tree, fields.latency, Int64(tonumber(line.latency)))
  return string.format("%s, %.3f us", line.outcome, tonumber(line.latency) / 1000)
end

-- Marks a frame without a line. The first one is told where no packet list shows the mark: columns would stay empty
-- without a word.
local function mark_missing(tree, frame)
  tree:add_proto_expert_info(no_line)
  if not state.is_found and not gui_enabled() then
    report_failure("afdx.ledger: no line for frame " .. frame.number + 1
      .. ". Is it this recording's ledger, and are afdx.tap and afdx.side right?")
    state.is_found = true
  end
end

local function add_verdict(tree, frame)
  local line = line_of(frame)
  if not line then return mark_missing(tree, frame) end
  state.is_found = true
  if not agrees(line, frame) then tree:add_proto_expert_info(other_line) end
  add_missing(tree, frame, line)
  return line.side and add_transit(tree, line) or add_judgement(tree, line)
end

-- Adds what a report found of the frame's link, network and time.
local function add_findings(tree, frame)
  if not (wants(tree, fields.finding) or wants(tree, fields.finding_kind) or wants(tree, fields.finding_level)) then return end
  for _, findings in ipairs({ state.findings[frame.vl] or {}, state.findings.all }) do
    for _, finding in ipairs(findings) do
      if covers(finding, frame) then
        add(tree, fields.finding, finding.text)
        add(tree, fields.finding_kind, finding.kind)
        add(tree, fields.finding_level, finding.level)
      end
    end
  end
end

-- The text of the tree's top line: a frame's link and number, and the verdict.
local function describe(tree, frame, verdict)
  if frame.is_afdx then tree:append_text(", virtual link " .. frame.vl .. (frame.sn and ", number " .. frame.sn or "")) end
  if verdict then tree:append_text(", " .. verdict) end
end

function afdx.dissector(buffer, packet, root)
  local frame = look_at(buffer, packet)
  if not frame.is_afdx and not state.ledger then return end
  state.is_shown = root.visible
  local tree = root:add(afdx, buffer())
  if frame.is_afdx then add_bytes(tree, buffer, frame) end
  if frame.is_afdx and state.findings then add_findings(tree, frame) end
  local verdict = state.ledger and add_verdict(tree, frame)
  if state.is_shown then describe(tree, frame, verdict) end
end

register_postdissector(afdx, false)
