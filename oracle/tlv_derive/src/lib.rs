//! The two derives of the source's `PersistedAttrs`, without the encoding: docs/RULES.md leaves TLV out.
use proc_macro::TokenStream;

#[proc_macro_derive(FromTLV)]
pub fn from_tlv(_: TokenStream) -> TokenStream {
    TokenStream::new()
}

/// A derive expands in the module of the struct it stands on, so this one may read the handler's private state: it shows the
/// two fields that have no getter. The source stays as it is.
#[proc_macro_derive(ToTLV)]
pub fn to_tlv(_: TokenStream) -> TokenStream {
    "impl<H: LevelControlHooks, OH: OnOffHooks> crate::lamp::Hidden for LevelControlHandler<'_, H, OH> {
        fn hidden(&self) -> (Instant, Option<u8>) {
            self.with_state(|state| (state.last_current_level_notification, state.previous_current_level))
        }
    }"
    .parse()
    .unwrap()
}
