-- The header that tells hbone a peer, written by haproxy 2.6 in front of the peer's bytes: examples/haproxy.cfg loads it.
--
-- haproxy's own PROXY header can't carry the identity before haproxy 2.9: it has no type-length-value of a type that one may choose, and
-- no fetch of any version reads a URI out of a certificate. So the two are done here.

local SIGNATURE, IDENTITY = "\r\n\r\n\0\r\nQUIT\n", 0xE0
local ALTERNATIVE_NAMES = "\x55\x1d\x11" -- 2.5.29.17

-- The value of DER at a place: its tag, and where its content begins and where it ends.
local function value(der, at)
    local tag, size = der:byte(at, at + 1)
    at = at + 2
    if size > 0x80 then
        local count = size - 0x80
        size = string.unpack(">I" .. count, der, at)
        at = at + count
    end
    return tag, at, at + size
end

-- The contents of the values between two places that have a tag.
local function each(der, at, stop, wanted)
    return function()
        while at < stop do
            local tag, first, behind = value(der, at)
            at = behind
            if tag == wanted then
                return first, behind
            end
        end
    end
end

local function only(der, at, stop, wanted)
    local first, behind = each(der, at, stop, wanted)()
    return first, behind
end

-- The one SPIFFE identity of a certificate; nil where it has none, or several URIs.
local function identity(der)
    local uris = {}
    local at, stop = only(der, 1, #der + 1, 0x30)
    at, stop = only(der, at, stop, 0x30) -- what is signed
    at, stop = only(der, at, stop, 0xA3)
    at, stop = only(der, at, stop, 0x30) -- the extensions
    for first, behind in each(der, at, stop, 0x30) do
        local name, name_end = only(der, first, behind, 0x06)
        if der:sub(name, name_end - 1) == ALTERNATIVE_NAMES then
            local octets, octets_end = only(der, first, behind, 0x04)
            local names, names_end = only(der, octets, octets_end, 0x30)
            for uri, uri_end in each(der, names, names_end, 0x86) do
                uris[#uris + 1] = der:sub(uri, uri_end - 1)
            end
        end
    end
    if #uris == 1 and uris[1]:find("^spiffe://") then
        return uris[1]
    end
end

-- The identity of a connection's peer, as the fetch `lua.spiffe`; nothing where there is none.
local function of_peer(txn)
    local is_read, uri = pcall(identity, txn.f:ssl_c_der() or "")
    return is_read and uri or ""
end

core.register_fetches("spiffe", of_peer)

-- Puts the header in front of what the peer sends, and says in `txn.told` that it did. Where it fails nothing says so: haproxy goes on
-- behind an action that fails, and haproxy.cfg must refuse such a connection, or its peer writes the header itself.
core.register_action("tell_peer", { "tcp-req" }, function(txn)
    local function octets(name)
        return (txn:get_var(name):gsub("%x%x", function(two) return string.char(tonumber(two, 16)) end))
    end
    local uri, source, destination = of_peer(txn), octets("txn.src"), octets("txn.dst")
    local part = source .. destination .. string.pack(">I2I2", txn.f:src_port(), txn.f:dst_port())
    part = part .. string.pack(">Bs2", IDENTITY, uri)
    local family = #source == 4 and 0x11 or 0x21
    local header = SIGNATURE .. string.pack(">BBs2", 0x21, family, part)
    if uri ~= "" and #source == #destination and txn.req:prepend(header) == #header then
        txn:set_var("txn.told", true)
    end
end)
