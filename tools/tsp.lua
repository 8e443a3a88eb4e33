-- Wireshark: what its own dissector of the Time Synchronization Protocol doesn't show of these datagrams (docs/WIRESHARK.md).
-- Clock stamps are shown in its place, those too that are none for a fault. Below what it shows of a message, the message's
-- time is added, in microseconds.

local SHORTEST, LONGEST, STAMP_LENGTH, REQUEST, REPLY, PORT = 13, 268, 28, 128, 129, 525
local NAME_OF = { [REQUEST] = "request", [REPLY] = "reply" }
local MOST_TICKET, READING_BOUND = 32767, 2147483648000000
local TIMED = { [1] = "adjtime", [5] = "settime", [14] = "date", [15] = "datereq", [22] = "setdate", [23] = "setdatereq" }

local clock = Proto("tsp_clock", "TSP Clock")
local field = {
    type = ProtoField.uint8("tsp_clock.type", "Type", base.DEC, NAME_OF),
    version = ProtoField.uint8("tsp_clock.version", "Version"),
    ticket = ProtoField.uint16("tsp_clock.ticket", "Ticket"),
    word = ProtoField.uint64("tsp_clock.word", "Word"),
    counter = ProtoField.uint64("tsp_clock.counter", "Counter"),
    reading = ProtoField.int64("tsp_clock.reading", "Reading in microseconds"),
    time = ProtoField.int64("tsp_clock.time", "Time in microseconds"),
    fault = ProtoField.string("tsp_clock.fault", "Fault"),
}
clock.fields = { field.type, field.version, field.ticket, field.word, field.counter, field.reading, field.time, field.fault }

local ports = DissectorTable.get("udp.port")
local builtin = ports:get_dissector(PORT)

local function is_stamp(buffer)
    return NAME_OF[buffer(0, 1):uint()] ~= nil
end

-- Why a stamp's octets spell no datagram, in the words of `show`, or nil.
local function fault_of(buffer)
    if buffer:len() < SHORTEST then return "short" end
    if buffer:len() > LONGEST then return "long" end
    if buffer(1, 1):uint() ~= 1 then return "version" end
    if buffer:len() ~= STAMP_LENGTH then return "stamp-length" end
    local ticket, reading = buffer(2, 2):uint(), buffer(20, 8):int64():tonumber()
    if buffer(0, 1):uint() == REQUEST then return (ticket ~= 0 or reading ~= 0) and "reserved" or nil end
    if ticket > MOST_TICKET then return "reserved" end
    return (reading <= -READING_BOUND or reading >= READING_BOUND) and "time" or nil
end

local function show_stamp(buffer, packet, tree)
    local name, fault = NAME_OF[buffer(0, 1):uint()], fault_of(buffer)
    local shown = tree:add(clock, buffer())
    packet.cols.protocol = "TSP"
    shown:add(field.type, buffer(0, 1))
    if fault then
        packet.cols.info = name .. " refused " .. fault .. ", " .. buffer:len() .. " octets"
        shown:add(field.fault, fault)
    else
        packet.cols.info = name .. " " .. tostring(buffer(4, 8):uint64()) .. " " .. tostring(buffer(12, 8):uint64())
    end
    for _, part in ipairs({ { field.version, 1, 1 }, { field.ticket, 2, 2 }, { field.word, 4, 8 }, { field.counter, 12, 8 }, { field.reading, 20, 8 } }) do
        if buffer:len() >= part[2] + part[3] then shown:add(part[1], buffer(part[2], part[3])) end
    end
end

local function show_time(buffer, tree)
    if buffer:len() < 13 or not TIMED[buffer(0, 1):uint()] then return end
    local micros = Int64.new(buffer(4, 4):int()) * 1000000 + buffer(8, 4):int()
    tree:add(clock, buffer(4, 8)):add(field.time, buffer(4, 8), micros)
end

function clock.dissector(buffer, packet, tree)
    if buffer:len() == 0 then return 0 end
    if is_stamp(buffer) then
        show_stamp(buffer, packet, tree)
    else
        if builtin then builtin:call(buffer, packet, tree) end
        show_time(buffer, tree)
    end
    return buffer:len()
end

ports:add(PORT, clock)
