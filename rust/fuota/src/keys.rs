use crate::sys;
use core::fmt;

/// A key of 16 bytes, in the order of the standard's keys. Its bytes get into no log: `Debug` does not show them, and two keys
/// are not compared.
#[derive(Clone, Copy)]
pub struct Key(pub [u8; 16]);

impl From<[u8; 16]> for Key {
    fn from(bytes: [u8; 16]) -> Self {
        Self(bytes)
    }
}

impl fmt::Debug for Key {
    fn fmt(&self, f: &mut fmt::Formatter<'_>) -> fmt::Result {
        f.write_str("Key(..)")
    }
}

impl Key {
    /// McAppSKey of a group with this McKey, by which its payloads are encrypted.
    ///
    /// ```
    /// use fuota::Key;
    ///
    /// let [app, net] = [Key([7; 16]).mc_app_s_key(0x0102_0304), Key([7; 16]).mc_net_s_key(0x0102_0304)];
    /// assert_ne!(app.0, net.0);
    /// ```
    pub fn mc_app_s_key(&self, addr: u32) -> Key {
        let mut found = Key([0; 16]);
        sys::fuota_mc_app_s_key(&self.0, addr, &mut found.0);
        found
    }

    /// McNetSKey of a group with this McKey, by which its frames have their MIC; network servers call it McNwkSKey.
    pub fn mc_net_s_key(&self, addr: u32) -> Key {
        let mut found = Key([0; 16]);
        sys::fuota_mc_net_s_key(&self.0, addr, &mut found.0);
        found
    }
}

/// The key of a device from which its multicast keys are made.
#[derive(Clone, Copy, Debug)]
pub enum RootKey {
    /// GenAppKey of LoRaWAN 1.0.
    GenAppKey(Key),
    /// AppKey of LoRaWAN 1.1.
    AppKey(Key),
}

impl RootKey {
    pub(crate) fn bytes(&self) -> [u8; 16] {
        match self {
            RootKey::GenAppKey(key) | RootKey::AppKey(key) => key.0,
        }
    }

    pub(crate) fn is_v11(&self) -> bool {
        matches!(self, RootKey::AppKey(_))
    }
}
