//! What the flags' numbers name.

/// PDU type: flags bits 7 to 9.
#[derive(Clone, Copy, Debug, PartialEq, Eq, Hash)]
pub enum PduType {
    /// Advertising or data, direction not told.
    AdvertisingOrData = 0,
    /// Auxiliary advertising.
    AuxiliaryAdvertising = 1,
    /// Data, master to slave.
    DataMasterToSlave = 2,
    /// Data, slave to master.
    DataSlaveToMaster = 3,
    /// Connected isochronous, master to slave.
    IsochronousMasterToSlave = 4,
    /// Connected isochronous, slave to master.
    IsochronousSlaveToMaster = 5,
    /// Broadcast isochronous.
    BroadcastIsochronous = 6,
}

impl PduType {
    /// All types, by their number.
    pub const ALL: [PduType; 7] = [
        PduType::AdvertisingOrData,
        PduType::AuxiliaryAdvertising,
        PduType::DataMasterToSlave,
        PduType::DataSlaveToMaster,
        PduType::IsochronousMasterToSlave,
        PduType::IsochronousSlaveToMaster,
        PduType::BroadcastIsochronous,
    ];
}

/// PHY: flags bits 14 and 15.
#[derive(Clone, Copy, Debug, PartialEq, Eq, Hash)]
pub enum Phy {
    /// LE 1M.
    OneM = 0,
    /// LE 2M.
    TwoM = 1,
    /// LE coded; its packet has a coding indicator after the access address.
    Coded = 2,
}

impl Phy {
    /// All PHYs, by their number.
    pub const ALL: [Phy; 3] = [Phy::OneM, Phy::TwoM, Phy::Coded];
}

/// Auxiliary kind: flags bits 12 and 13 for PDU type 1, [`PduType::AuxiliaryAdvertising`].
#[derive(Clone, Copy, Debug, PartialEq, Eq, Hash)]
pub enum AuxiliaryKind {
    /// AUX_ADV_IND.
    Advertising = 0,
    /// AUX_CHAIN_IND.
    Chain = 1,
    /// AUX_SYNC_IND.
    Sync = 2,
    /// AUX_SCAN_RSP.
    ScanResponse = 3,
}

impl AuxiliaryKind {
    /// All kinds, by their number.
    pub const ALL: [AuxiliaryKind; 4] = [
        AuxiliaryKind::Advertising,
        AuxiliaryKind::Chain,
        AuxiliaryKind::Sync,
        AuxiliaryKind::ScanResponse,
    ];
}

/// What flags bits 12 and 13 say, which depends on the PDU type.
#[derive(Clone, Copy, Debug, PartialEq, Eq, Hash)]
pub enum Dependent {
    /// PDU type 1: the auxiliary kind, the number of both bits.
    AuxiliaryKind(AuxiliaryKind),
    /// Every other type: the MIC of a decrypted packet.
    Mic {
        /// It was checked: bit 12, 0x1000.
        checked: bool,
        /// It passed its check: bit 13, 0x2000.
        passed: bool,
    },
}

impl Dependent {
    /// What the two bits say.
    pub(super) fn of(pdu_type: PduType, bits: u8) -> Dependent {
        match pdu_type {
            PduType::AuxiliaryAdvertising => {
                Dependent::AuxiliaryKind(AuxiliaryKind::ALL[bits as usize])
            }
            _ => Dependent::Mic {
                checked: bits & 1 != 0,
                passed: bits & 2 != 0,
            },
        }
    }

    /// The two bits that say it.
    pub(super) fn bits(self) -> u8 {
        match self {
            Dependent::AuxiliaryKind(kind) => kind as u8,
            Dependent::Mic { checked, passed } => u8::from(checked) | u8::from(passed) << 1,
        }
    }
}
