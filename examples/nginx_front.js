// The header that tells hbone a peer, written by nginx in front of the peer's bytes: examples/nginx_front.conf loads it.
//
// nginx's own `proxy_protocol on` writes version 1, which has no identity and which hbone refuses; and no variable of nginx has the URIs of
// a certificate. So the two are done here.

const SIGNATURE = '\r\n\r\n\0\r\nQUIT\n', IDENTITY = 0xE0, ALTERNATIVE_NAMES = '551d11'; // 2.5.29.17

// The values of DER between two places that have a tag.
function all(der, at, stop, tag) {
    const found = [];
    while (at < stop) {
        const own = der[at];
        let size = der[at + 1];
        at += 2;
        if (size > 0x80) {
            const count = size - 0x80;
            size = der.readUIntBE(at, count);
            at += count;
        }
        if (own === tag) {
            found.push([at, at + size]);
        }
        at += size;
    }
    return found;
}

function first(der, at, tag) {
    return all(der, at[0], at[1], tag)[0];
}

// The one SPIFFE identity of a certificate in PEM. Throws where it has none, or several URIs.
function identity(pem) {
    const der = Buffer.from(pem.replace(/-----[^-]*-----|\s/g, ''), 'base64');
    let at = [0, der.length];
    [0x30, 0x30, 0xA3, 0x30].forEach(tag => { // what is signed, and of that the extensions
        at = first(der, at, tag);
    });
    const uris = [];
    all(der, at[0], at[1], 0x30).forEach(extension => {
        const name = first(der, extension, 0x06);
        if (der.slice(name[0], name[1]).toString('hex') === ALTERNATIVE_NAMES) {
            const names = first(der, first(der, extension, 0x04), 0x30);
            all(der, names[0], names[1], 0x86).forEach(it => uris.push(der.slice(it[0], it[1])));
        }
    });
    if (uris.length !== 1 || !uris[0].toString().startsWith('spiffe://')) {
        throw new Error('no one SPIFFE identity');
    }
    return uris[0];
}

// The octets of an address in text.
function octets(text) {
    if (text.indexOf(':') < 0) {
        return Buffer.from(text.split('.').map(Number));
    }
    const halves = text.split('::').map(half => half ? half.split(':') : []);
    const groups = halves.length < 2 ? halves[0] : halves[0].concat(Array(8 - halves[0].length - halves[1].length).fill('0'), halves[1]);
    return Buffer.from(groups.map(it => it.padStart(4, '0')).join(''), 'hex');
}

function two(number) {
    return Buffer.from([number >> 8, number & 0xFF]);
}

function header(s) {
    const told = s.variables, uri = identity(told.ssl_client_raw_cert);
    const source = octets(told.remote_addr);
    const part = Buffer.concat([source, octets(told.server_addr), two(+told.remote_port), two(+told.server_port),
        Buffer.from([IDENTITY]), two(uri.length), uri]);
    return Buffer.concat([Buffer.from(SIGNATURE), Buffer.from([0x21, source.length === 4 ? 0x11 : 0x21]), two(part.length), part]);
}

// Puts the header in front of what comes from the peer. Where it throws nginx ends the connection.
function tell_peer(s) {
    const front = header(s);
    s.on('upstream', (data, flags) => {
        s.send(Buffer.concat([front, data]), flags);
        s.off('upstream');
    });
}

export default {tell_peer};
