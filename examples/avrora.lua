-- A dissector for Wireshark and tshark: the frames that `avrora-tools export pcapng` writes (link type USER0).
--   tshark -X lua_script:examples/avrora.lua -r flood.pcapng
-- A frame is AA AA 7E n and n bytes of payload. What the payload means is your firmware's: add its fields below, where
-- examples/packet.c is shown as an example (node, number, reading).
local proto = Proto("avrora", "Avrora radio frame")
local fields = {
    length = ProtoField.uint8("avrora.length", "Payload length", base.DEC),
    payload = ProtoField.bytes("avrora.payload", "Payload"),
    node = ProtoField.uint8("avrora.packet.node", "Node", base.DEC),
    number = ProtoField.uint8("avrora.packet.number", "Number", base.DEC),
    reading = ProtoField.uint8("avrora.packet.reading", "Reading", base.DEC),
}
proto.fields = fields
local cut = ProtoExpert.new("avrora.cut", "Bytes of the frame were lost", expert.group.MALFORMED, expert.severity.WARN)
proto.experts = { cut }

local HEAD = 4 -- AA AA 7E n

function proto.dissector(buffer, info, tree)
    info.cols.protocol = "Avrora"
    local root = tree:add(proto, buffer())
    local is_whole = buffer:len() > HEAD and buffer(0, 3):bytes():tohex() == "AAAA7E" and buffer:len() == HEAD + buffer(3, 1):uint()
    if not is_whole then
        info.cols.info = buffer:len() == 1 and "byte " .. buffer():bytes():tohex() or "part of a frame: " .. buffer:bytes():tohex(true, " ")
        if buffer:len() > 1 then root:add_proto_expert_info(cut) end
        return
    end
    root:add(fields.length, buffer(3, 1))
    local payload = buffer(HEAD)
    local part = root:add(fields.payload, payload)
    if payload:len() == 3 then
        part:add(fields.node, payload(0, 1))
        part:add(fields.number, payload(1, 1))
        part:add(fields.reading, payload(2, 1))
    end
    info.cols.info = "frame of " .. payload:len() .. " bytes: " .. payload:bytes():tohex(true, " ")
end

DissectorTable.get("wtap_encap"):add(wtap.USER0, proto)
