#!/usr/bin/env python3
"""Small changes of the original, each of which the comparison with the port must see.

    (cd crates/c_api && rt lib); host/mutations.py [NUMBER ..]

One line for each: in how many cases port and original part, random and directed ones. The first change is none, and must pass. It takes some minutes and is not part of the gate.

A source other than the original is built only with LPSPI_ORIGINAL_CHANGED=1 and without CI=true (original/build.rs), so that is the environment of all changes but the first.
"""
import os
import re
import subprocess
import sys
import tempfile

HOST = os.path.dirname(os.path.abspath(__file__))
BESIDE = os.path.join(HOST, "../../shared/docs/src/src/common/lpspi.rs")
text = open(os.environ.get("LPSPI_ORIGINAL", BESIDE)).read()


def swap(a, b):
    """Two pieces of text change places."""
    return lambda t: t.replace(a, "\0").replace(b, a).replace("\0", b)


def sub(old, new, nth=0):
    def change(t):
        at = -1
        for _ in range(nth + 1):
            at = t.index(old, at + 1)
        return t[:at] + new + t[at + len(old):]
    return change


def after(mark, old, new):
    def change(t):
        at = t.index(old, t.index(mark))
        return t[:at] + new + t[at + len(old):]
    return change


MUTATIONS = [
    ("none", lambda t: t),
    ("full at count > capacity", sub("Direction::Tx => self.txcount >= self.txcap", "Direction::Tx => self.txcount > self.txcap")),
    ("transmit poll looks at the receive error", after("async fn spin_for_fifo_space", "Status::TRANSMIT_ERROR", "Status::RECEIVE_ERROR")),
    ("receive poll looks at the transmit error", after("async fn spin_for_word", "Status::RECEIVE_ERROR", "Status::TRANSMIT_ERROR")),
    ("flush: transmit error first", after("pub fn flush", "status.intersects(Status::RECEIVE_ERROR) {\n                return Err(LpspiError::Fifo(Direction::Rx));\n            }\n            if status.intersects(Status::TRANSMIT_ERROR) {\n                return Err(LpspiError::Fifo(Direction::Tx));", "status.intersects(Status::TRANSMIT_ERROR) {\n                return Err(LpspiError::Fifo(Direction::Tx));\n            }\n            if status.intersects(Status::RECEIVE_ERROR) {\n                return Err(LpspiError::Fifo(Direction::Rx));")),
    ("flush: or for and", sub("if !status.intersects(Status::BUSY) && ", "if !status.intersects(Status::BUSY) || ")),
    ("flush: receive FIFO empty", sub("self.fifo_status().is_empty(Direction::Tx)", "self.fifo_status().is_empty(Direction::Rx)")),
    ("FSR before PARAM", swap("        let (rxcap, txcap) = ral::read_reg!(ral::lpspi, self.lpspi, PARAM, RXFIFO, TXFIFO);\n", "        let (rxcount, txcount) = ral::read_reg!(ral::lpspi, self.lpspi, FSR, RXCOUNT, TXCOUNT);\n")),
    ("PARAM's fields change places", sub("PARAM, RXFIFO, TXFIFO);", "PARAM, TXFIFO, RXFIFO);")),
    ("DER read before IER", swap("        let ier = ral::read_reg!(ral::lpspi, self.lpspi, IER);\n", "        let der = ral::read_reg!(ral::lpspi, self.lpspi, DER);\n")),
    ("DMR1 written before DMR0", swap("        ral::write_reg!(ral::lpspi, self.lpspi, DMR0, dmr0);\n", "        ral::write_reg!(ral::lpspi, self.lpspi, DMR1, dmr1);\n")),
    ("no wait for MEN 0 in soft_reset", sub("        while self.is_enabled() {}\n", "")),
    ("soft_reset leaves RST", after("pub fn soft_reset", "ral::modify_reg!(ral::lpspi, self.lpspi, CR, RST: RST_0);", "ral::modify_reg!(ral::lpspi, self.lpspi, CR, RST: RST_1);")),
    ("soft_reset enables always", sub("self.set_enable(enabled);", "self.set_enable(true);")),
    ("SCKPCS and PCSSCK change places", sub("let (sckpcs, pcssck) = ral::read_reg!(ral::lpspi, lpspi, CCR, SCKPCS, PCSSCK);", "let (sckpcs, pcssck) = ral::read_reg!(ral::lpspi, lpspi, CCR, PCSSCK, SCKPCS);")),
    ("recovery clears one flag", sub("self.clear_status(Status::TRANSMIT_ERROR | Status::RECEIVE_ERROR);", "self.clear_status(Status::TRANSMIT_ERROR);")),
    ("recovery clears before the reset", swap("        self.soft_reset();\n", "        self.clear_status(Status::TRANSMIT_ERROR | Status::RECEIVE_ERROR);\n")),
    ("dummy byte is 0", sub("const DUMMY: u8 = u8::MAX;", "const DUMMY: u8 = 0;")),
    ("dummies by the read length", sub("let dummies = total_len.saturating_sub(write_len);", "let dummies = total_len.saturating_sub(read_len);")),
    ("no discards", sub("let discards = total_len.saturating_sub(read_len);", "let discards = 0 * total_len.saturating_sub(read_len);")),
    ("words of the write buffer only", sub("let total_words = tx_words.max(rx_words);", "let total_words = tx_words.min(rx_words);")),
    ("largest frame one less", sub("const MAX_FRAME_SIZE: u16 = 1 << 12;", "const MAX_FRAME_SIZE: u16 = (1 << 12) - 1;")),
    ("smallest frame one more", sub("const MIN_FRAME_SIZE: u16 = 8;", "const MIN_FRAME_SIZE: u16 = 9;")),
    ("frame size not less one", sub("Ok(Self(frame_size as u32 - 1))", "Ok(Self(frame_size as u32))")),
    ("CPOL inverted", sub("matches!(mode.polarity, Polarity::IdleHigh)", "matches!(mode.polarity, Polarity::IdleLow)")),
    ("chip select not set", sub("        transaction.set_pcs(self.pcs);\n", "")),
    ("command before the poll", sub("        self.wait_for_transmit_fifo_space()?;\n        self.enqueue_transaction(transaction);\n", "        self.enqueue_transaction(transaction);\n        self.wait_for_transmit_fifo_space()?;\n")),
    ("recovery before the command", sub("        self.wait_for_transmit_fifo_space()?;\n", "        self.wait_for_transmit_fifo_space().inspect_err(|_| self.recover_from_error())?;\n")),
    ("no recovery", sub("            .inspect_err(|_| self.recover_from_error())?;\n", "?;\n")),
    ("receiving side first", sub("futures::future::try_join(tx, rx)", "futures::future::try_join(rx, tx)")),
    ("bytes not reversed in MSB", after("impl Word for u8", "matches!(bit_order, BitOrder::Msb)", "matches!(bit_order, BitOrder::Lsb)")),
    ("watermark up to the FIFO's size", sub("watermark.min(max_watermark - 1)", "watermark.min(max_watermark)")),
    ("init: a quarter of the FIFO", sub("u32::from(tx_fifo_size) / 2", "u32::from(tx_fifo_size) / 4")),
    ("MEN not restored", sub("CR, MEN: self.men as u32);", "CR, MEN: 1);")),
    ("cache after the CCR write", lambda t: sub("        self.ccr_cache.update(timing);\n", "")(t).replace("            SCKDIV: timing.sckdiv as u32,\n        );\n", "            SCKDIV: timing.sckdiv as u32,\n        );\n        self.ccr_cache.update(timing);\n")),
    ("MASTER not negated", sub("MASTER: !enable as u32", "MASTER: enable as u32")),
    ("polarities change places", swap("pcspol | mask", "pcspol & !mask")),
    ("RDR where RXEMPTY is 1", sub("RXEMPTY == RXEMPTY_0", "RXEMPTY == RXEMPTY_1")),
    ("flags not masked", sub("let flags = flags & Status::W1C;", "let flags = flags;")),
    ("watermarks change places", swap("FCR, RXWATER),", "FCR, TXWATER),")),
    ("RDR read before RXCOUNT is looked at", after("async fn spin_for_word", "            let fifo_status = self.fifo_status();\n            if !fifo_status.is_empty(Direction::Rx) {\n                let data = self.read_data_unchecked();", "            let data = self.read_data_unchecked();\n            let fifo_status = self.fifo_status();\n            if !fifo_status.is_empty(Direction::Rx) {")),
    ("in place sends the buffer as it was", sub("        let (tx, rx) = transfer_in_place(data);\n", "        let before = data.to_vec();\n        let (tx, rx) = (TransmitBuffer::new(&before), ReceiveBuffer::new(data));\n")),
    ("no RXMSK in write_no_read", sub("        transaction.set_receive_data_mask(true);\n", "")),
    ("no TXMSK in read_no_write", sub("        transaction.set_transmit_data_mask(true);\n", "")),
    ("no recovery in exchange", after("fn exchange<W: Word>", "        .inspect_err(|_| self.recover_from_error())?;\n", "?;\n")),
    ("no recovery in write_no_read", after("fn write_no_read", "            self.recover_from_error();\n", "")),
    ("no recovery in read_no_write", after("fn read_no_write", "            self.recover_from_error();\n", "")),
    ("no empty test in exchange_separate", sub("        if larger_buffer.is_empty() {\n            return Ok(());\n        }\n", "")),
    ("frame of the write buffer", sub("self.bus_transaction(larger_buffer)?", "self.bus_transaction(if write.is_empty() { larger_buffer } else { write })?")),
    ("halves not reversed in MSB", after("impl Word for u16", "matches!(bit_order, BitOrder::Msb)", "matches!(bit_order, BitOrder::Lsb)")),
    ("dummy word is 0", sub("const DUMMY: u32 = u32::MAX;", "const DUMMY: u32 = 0;")),
    ("frames of 1 bit over words", sub(" && (1 != last_frame_size)", "")),
    ("half divider of 2", sub("half_div.clamp(3, 128)", "half_div.clamp(2, 128)")),
    ("half divider of 127 at most", sub("half_div.clamp(3, 128)", "half_div.clamp(3, 127)")),
    ("no wait for MEN 0 where disabled", sub("        while ral::read_reg!(ral::lpspi, lpspi, CR, MEN == MEN_1) {}\n", "")),
    ("unnamed status bits", after("pub fn status", "Status::from_bits_truncate", "Status::from_bits_retain")),
    ("FIFOs change places", swap("CR, RTF: RTF_1),", "CR, RRF: RRF_1),")),
]


def differing(output, directed):
    """Cases that differ, and all cases, of the directed tests or of the random ones."""
    lines = re.findall(r"^original: (.*): (\d+) of (\d+) cases differ$", output, re.MULTILINE)
    counts = [(int(n), int(m)) for test, n, m in lines if ("directed" in test) == directed]
    return sum(n for n, _ in counts), sum(m for _, m in counts)


only = [int(a) for a in sys.argv[1:]]
assert all(n in range(len(MUTATIONS)) for n in only), "no such change"
wrong = 0
with tempfile.TemporaryDirectory() as folder:
    path = os.path.join(folder, "lpspi.rs")
    env = dict(os.environ, LPSPI_ORIGINAL=path, RUST_BACKTRACE="0", LPSPI_SEED="1", LPSPI_COUNT="1")
    env.setdefault("CARGO_TARGET_DIR", os.path.join(HOST, "target/mutations"))
    for variable in ("CI", "LPSPI_ORIGINAL_CHANGED"):
        env.pop(variable, None)
    test = ["cargo", "test", "--quiet", "--locked", "--offline", "--manifest-path", HOST + "/Cargo.toml", "--test", "original", "--", "port::", "--show-output"]
    for number, (name, change) in enumerate(MUTATIONS):
        if only and number not in only:
            continue
        mutant = change(text)
        assert (mutant == text) == (number == 0), name
        if number > 0:
            env["LPSPI_ORIGINAL_CHANGED"] = "1"
        with open(path, "w") as file:
            file.write(mutant)
        out = subprocess.run(test, env=env, text=True, errors="replace", capture_output=True)
        (random, randoms), (directed, directeds) = (differing(out.stdout, kind) for kind in (False, True))
        built, passed = randoms * directeds > 0, out.returncode == 0
        right = built and passed == (random + directed == 0) == (number == 0)
        wrong += not right
        what = f"{random} of {randoms} random and {directed} of {directeds} directed cases" if built else "does not build"
        print(f"{number:2} {name}: {what}{'' if right else '  <-- not as it should be'}", flush=True)
print("not as they should be:", wrong)
sys.exit(wrong > 0)
