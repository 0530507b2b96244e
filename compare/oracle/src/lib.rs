//! The original, sahara.rs and types.rs as they stand in the folder QDL_SRC, as a library.
#![allow(dead_code)]

pub mod types {
    include!(concat!(env!("QDL_SRC"), "/types.rs"));
}

pub mod sahara {
    include!(concat!(env!("QDL_SRC"), "/sahara.rs"));

    /// A decoded packet as numbers: command, length, mode or command, the other numbers of the body in order, the unused words.
    #[derive(Debug, Default, PartialEq)]
    pub struct Numbers {
        pub command: u32,
        pub len: u32,
        pub value: u32,
        pub body: [u64; 3],
        pub unk: [u32; 6],
    }

    /// The original's parser, which is private to this module.
    pub fn parse(bytes: &[u8]) -> Result<Numbers> {
        let p = sahara_parse_packet(bytes, false)?;
        let mut n = Numbers { command: p.cmd as u32, len: p.len, ..Default::default() };
        match p.body {
            SaharaPacketBody::HelloReq(b) => {
                n.value = b.mode as u32;
                n.body = [b.ver.into(), b.compatible.into(), b.max_len.into()];
                n.unk = [b.unk0, b.unk1, b.unk2, b.unk3, b.unk4, b.unk5];
            }
            SaharaPacketBody::HelloResp(b) => {
                n.value = b.mode as u32;
                n.body = [b.ver.into(), b.compatible.into(), b.status.into()];
                n.unk = [b.unk0, b.unk1, b.unk2, b.unk3, b.unk4, b.unk5];
            }
            SaharaPacketBody::ReadReq(b) => n.body = [b.image.into(), b.offset.into(), b.len.into()],
            SaharaPacketBody::Eoi(b) => n.body = [b.image.into(), b.status.into(), 0],
            SaharaPacketBody::DoneResp(b) => n.body = [b.status.into(), 0, 0],
            SaharaPacketBody::ExecResp(b) => {
                n.value = b.command as u32;
                n.body = [b.len.into(), 0, 0];
            }
            SaharaPacketBody::Command(c) => n.value = c as u32,
            SaharaPacketBody::Debug64Req(b) => n.body = [b.addr, b.len, 0],
            SaharaPacketBody::ReadMem64Req(b) => n.body = [b.addr, b.len, 0],
            SaharaPacketBody::ReadData64Req(b) => n.body = [b.image, b.offset, b.len],
            SaharaPacketBody::DoneReq(_)
            | SaharaPacketBody::ResetReq(_)
            | SaharaPacketBody::ResetResp(_)
            | SaharaPacketBody::CommandReady(_)
            | SaharaPacketBody::SwitchMode(_) => {}
        }
        Ok(n)
    }

    /// A table entry as bincode reads it: preference, base, length, description, filename.
    pub fn entry(bytes: &[u8]) -> Result<(u64, u64, u64, [u8; 20], [u8; 20])> {
        let e = bincode::deserialize::<RamdumpTable64>(bytes)?;
        Ok((e.save_pref, e.base, e.len, e.description, e.filename))
    }

    pub fn mode(n: u32) -> SaharaMode {
        match n {
            0 => SaharaMode::WaitingForImage,
            2 => SaharaMode::MemoryDebug,
            3 => SaharaMode::Command,
            n => unreachable!("the original has no mode {n}"),
        }
    }

    pub fn command(n: u32) -> SaharaCmdModeCmd {
        match n {
            0 => SaharaCmdModeCmd::Nop,
            1 => SaharaCmdModeCmd::ReadSerialNum,
            2 => SaharaCmdModeCmd::ReadHwId,
            _ => SaharaCmdModeCmd::ReadOemKeyHash,
        }
    }
}

/// Firehose is no part of this.
pub fn firehose_reset<T>(_: &mut T, _: &types::FirehoseResetMode, _: u8) -> anyhow::Result<()> {
    Ok(())
}
