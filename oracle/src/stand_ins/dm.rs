//! The data model: contexts that turn notices into actions, the cluster's generated types, and the source itself.
use crate::error::Error;
use crate::persist::Kv;
use crate::play;

pub type AttrId = u32;
pub type ClusterId = u32;
pub type EndptId = u16;

/// Data versions are left out by docs/RULES.md.
pub struct Dataver;

impl Dataver {
    pub fn get(&self) -> u32 {
        0
    }
    pub fn changed(&self) {}
}

#[derive(Clone, Copy)]
pub struct Cluster<'a> {
    pub id: ClusterId,
    pub revision: u16,
    pub feature_map: u32,
    attributes: &'a [AttrId],
    commands: &'a [u32],
}

impl<'a> Cluster<'a> {
    pub const fn with_revision(mut self, revision: u16) -> Self {
        self.revision = revision;
        self
    }
    pub const fn with_features(mut self, features: u32) -> Self {
        self.feature_map = features;
        self
    }
    pub const fn with_attrs(mut self, attributes: &'a [AttrId]) -> Self {
        self.attributes = attributes;
        self
    }
    pub const fn with_cmds(mut self, commands: &'a [u32]) -> Self {
        self.commands = commands;
        self
    }
    pub fn attribute(&self, id: AttrId) -> Option<&AttrId> {
        self.attributes.iter().find(|&&a| a == id)
    }
    pub fn command(&self, id: u32) -> Option<&u32> {
        self.commands.iter().find(|&&c| c == id)
    }
}

pub enum LifecycleOp {
    Startup,
    FactoryReset,
    FabricRemoval {},
    FailSafeCommit,
    FailSafeExpiry,
}

pub trait HandlerContext {
    fn kv(&self) -> Kv {
        Kv
    }
    fn notify_attr_changed(&self, _endpoint: EndptId, _cluster: ClusterId, attribute: AttrId) {
        play::attribute_reported(attribute);
    }
    fn notify_cluster_changed(&self, _endpoint: EndptId, _cluster: ClusterId) {
        play::cluster_reported();
    }
}
pub trait ReadContext: HandlerContext {}
pub trait InvokeContext: HandlerContext {}
pub trait WriteContext: HandlerContext {
    /// A setter's report of its own attribute is no action (docs/RULES.md, Events and answers).
    fn notify_changed(&self) {}
}

pub struct Ctx;
impl HandlerContext for Ctx {}
impl ReadContext for Ctx {}
impl InvokeContext for Ctx {}
impl WriteContext for Ctx {}
impl<T: HandlerContext> HandlerContext for &T {}

pub mod clusters {
    pub mod app {
        // `pub mod level_control`: the source, by the path that build.rs found.
        include!(concat!(env!("OUT_DIR"), "/source.rs"));

        pub mod deferred_persist {
            use crate::error::Error;
            use crate::play;

            /// Only the mark counts: the delay and the save are left out by docs/RULES.md.
            pub struct DeferredPersist;

            impl DeferredPersist {
                pub fn new() -> Self {
                    Self
                }
                pub fn mark_dirty(&self) {
                    play::act("P");
                }
                pub fn clear(&self) {}
                pub async fn run<F: Fn() -> Result<(), Error>>(&self, _delay_ms: u32, _save: F) {
                    core::future::pending().await
                }
            }
        }

        pub mod on_off {
            use super::level_control::LevelControlHooks;
            use crate::dm::Cluster;
            use crate::play;
            use core::marker::PhantomData;

            pub const FULL_CLUSTER: Cluster<'static> = Cluster {
                id: 6,
                revision: 6,
                feature_map: 0,
                attributes: &[],
                commands: &[],
            };

            pub enum EffectVariantEnum {}

            #[allow(async_fn_in_trait)]
            pub trait OnOffHooks {
                const CLUSTER: Cluster<'static>;
                fn set_on_off(&self, on: bool);
                async fn handle_off_with_effect(&self, effect: EffectVariantEnum);
            }

            /// Answers the on/off value of the event in hand, and records what the level side sends it.
            pub struct OnOffHandler<'a, OH: OnOffHooks, H: LevelControlHooks>(
                PhantomData<(&'a (), OH, H)>,
            );

            impl<OH: OnOffHooks, H: LevelControlHooks> OnOffHandler<'_, OH, H> {
                pub const fn new() -> Self {
                    Self(PhantomData)
                }
                pub fn on_off(&self) -> bool {
                    play::on_off()
                }
                pub fn coupled_cluster_set_on_off(&self, on: bool) {
                    play::act(if on { "C1" } else { "C0" });
                }
            }
        }
    }

    pub mod scenes {
        use super::decl::scenes_management::*;
        use crate::dm::{AttrId, ClusterId, EndptId, Error, HandlerContext};
        use crate::tlv::{TLVArray, TLVBuilderParent};

        pub trait AttributeValuePairPush: Sized {
            fn push_u8(self, id: AttrId, value: u8) -> Result<Self, Error>;
        }
        impl<P> AttributeValuePairPush for AttributeValuePairStructArrayBuilder<P> {
            fn push_u8(self, _: AttrId, _: u8) -> Result<Self, Error> {
                Ok(self)
            }
        }

        pub trait SceneInvalidator {
            fn scenable_attribute_changed(&self, endpoint_id: EndptId);
        }

        #[allow(async_fn_in_trait)]
        pub trait SceneClusterHandler {
            const CLUSTER_ID: ClusterId;
            fn endpoint_id(&self) -> EndptId;
            fn is_scenable_attribute(attribute_id: AttrId) -> bool;
            fn capture<P: TLVBuilderParent>(
                &self,
                avp_array: AttributeValuePairStructArrayBuilder<P>,
            ) -> Result<AttributeValuePairStructArrayBuilder<P>, Error>;
            async fn apply<C: HandlerContext>(
                &self,
                ctx: &C,
                avp_list: &TLVArray<'_, AttributeValuePairStruct<'_>>,
                transition_time_ms: u32,
            ) -> Result<(), Error>;
        }
    }

    /// What rs-matter generates from the cluster definitions, as far as the source uses it.
    pub mod decl {
        pub mod scenes_management {
            use crate::dm::{AttrId, Error};
            use core::marker::PhantomData;

            #[derive(Clone)]
            pub struct AttributeValuePairStruct<'a>(AttrId, Option<u8>, PhantomData<&'a ()>);

            impl AttributeValuePairStruct<'_> {
                pub fn new(id: AttrId, value: Option<u8>) -> Self {
                    Self(id, value, PhantomData)
                }
                pub fn attribute_id(&self) -> Result<AttrId, Error> {
                    Ok(self.0)
                }
                pub fn value_unsigned_8(&self) -> Result<Option<u8>, Error> {
                    Ok(self.1)
                }
            }

            pub struct AttributeValuePairStructArrayBuilder<P>(PhantomData<P>);
        }

        pub mod level_control {
            use crate::dm::*;
            use crate::tlv::Nullable;
            use core::marker::PhantomData;

            /// Keeps bits without a name, as the generated type does.
            #[derive(Clone, Copy, Debug, PartialEq, Eq)]
            pub struct OptionsBitmap(u8);

            impl OptionsBitmap {
                pub const EXECUTE_IF_OFF: Self = Self(1);
                pub const fn empty() -> Self {
                    Self(0)
                }
                pub const fn from_bits(bits: u8) -> Option<Self> {
                    Some(Self(bits))
                }
                pub const fn from_bits_retain(bits: u8) -> Self {
                    Self(bits)
                }
                pub const fn bits(&self) -> u8 {
                    self.0
                }
                pub const fn contains(&self, other: Self) -> bool {
                    self.0 & other.0 == other.0
                }
            }

            pub struct Feature(u32);

            impl Feature {
                pub const ON_OFF: Self = Self(1);
                pub const LIGHTING: Self = Self(2);
                pub const fn bits(&self) -> u32 {
                    self.0
                }
            }

            #[derive(Clone, Copy, Debug, PartialEq, Eq)]
            pub enum MoveModeEnum {
                Up,
                Down,
            }

            #[derive(Clone, Copy, Debug, PartialEq, Eq)]
            pub enum StepModeEnum {
                Up,
                Down,
            }

            pub enum AttributeId {
                CurrentLevel = 0,
                RemainingTime = 1,
                MinLevel = 2,
                MaxLevel = 3,
                Options = 0x0F,
                OnLevel = 0x11,
                StartUpCurrentLevel = 0x4000,
            }

            pub enum CommandId {
                MoveToLevel = 0,
                Move = 1,
                Step = 2,
                Stop = 3,
                MoveToLevelWithOnOff = 4,
                MoveWithOnOff = 5,
                StepWithOnOff = 6,
                StopWithOnOff = 7,
            }

            /// With every attribute and command that `validate` asks for: its lists are left out by docs/RULES.md.
            pub const FULL_CLUSTER: Cluster<'static> = Cluster {
                id: 8,
                revision: 6,
                feature_map: 0,
                attributes: with!(
                    AttributeId::CurrentLevel
                        | AttributeId::RemainingTime
                        | AttributeId::Options
                        | AttributeId::OnLevel
                        | AttributeId::StartUpCurrentLevel
                ),
                commands: &[0, 1, 2, 3, 4, 5, 6, 7],
            };

            pub struct HandlerAdaptor<T>(pub T);

            /// The fields of all commands, decoded.
            #[derive(Default)]
            pub struct Request<'a> {
                pub level: u8,
                pub down: bool,
                pub step_size: u8,
                pub transition_time: Option<u16>,
                pub rate: Option<u8>,
                pub options_mask: u8,
                pub options_override: u8,
                pub encoded: PhantomData<&'a ()>,
            }

            impl Request<'_> {
                pub fn level(&self) -> Result<u8, Error> {
                    Ok(self.level)
                }
                pub fn move_mode(&self) -> Result<MoveModeEnum, Error> {
                    Ok(if self.down {
                        MoveModeEnum::Down
                    } else {
                        MoveModeEnum::Up
                    })
                }
                pub fn step_mode(&self) -> Result<StepModeEnum, Error> {
                    Ok(if self.down {
                        StepModeEnum::Down
                    } else {
                        StepModeEnum::Up
                    })
                }
                pub fn step_size(&self) -> Result<u8, Error> {
                    Ok(self.step_size)
                }
                pub fn transition_time(&self) -> Result<Nullable<u16>, Error> {
                    Ok(self.transition_time.into())
                }
                pub fn rate(&self) -> Result<Nullable<u8>, Error> {
                    Ok(self.rate.into())
                }
                pub fn options_mask(&self) -> Result<OptionsBitmap, Error> {
                    Ok(OptionsBitmap(self.options_mask))
                }
                pub fn options_override(&self) -> Result<OptionsBitmap, Error> {
                    Ok(OptionsBitmap(self.options_override))
                }
            }

            pub type MoveToLevelRequest<'a> = Request<'a>;
            pub type MoveRequest<'a> = Request<'a>;
            pub type StepRequest<'a> = Request<'a>;
            pub type StopRequest<'a> = Request<'a>;
            pub type MoveToLevelWithOnOffRequest<'a> = Request<'a>;
            pub type MoveWithOnOffRequest<'a> = Request<'a>;
            pub type StepWithOnOffRequest<'a> = Request<'a>;
            pub type StopWithOnOffRequest<'a> = Request<'a>;
            pub type MoveToClosestFrequencyRequest<'a> = Request<'a>;

            type Done = Result<(), Error>;

            #[allow(async_fn_in_trait)]
            pub trait ClusterHandler {
                const CLUSTER: Cluster<'static>;
                fn lifecycle(&self, ctx: impl HandlerContext, op: LifecycleOp) -> Done;
                async fn run(&self, ctx: impl HandlerContext) -> Done;
                fn dataver(&self) -> u32;
                fn dataver_changed(&self);

                fn current_level(&self, ctx: impl ReadContext) -> Result<Nullable<u8>, Error>;
                fn remaining_time(&self, ctx: impl ReadContext) -> Result<u16, Error>;
                fn min_level(&self, ctx: impl ReadContext) -> Result<u8, Error>;
                fn max_level(&self, ctx: impl ReadContext) -> Result<u8, Error>;
                fn on_level(&self, ctx: impl ReadContext) -> Result<Nullable<u8>, Error>;
                fn options(&self, ctx: impl ReadContext) -> Result<OptionsBitmap, Error>;
                fn on_off_transition_time(&self, ctx: impl ReadContext) -> Result<u16, Error>;
                fn on_transition_time(&self, ctx: impl ReadContext)
                    -> Result<Nullable<u16>, Error>;
                fn off_transition_time(
                    &self,
                    ctx: impl ReadContext,
                ) -> Result<Nullable<u16>, Error>;
                fn default_move_rate(&self, ctx: impl ReadContext) -> Result<Nullable<u8>, Error>;
                fn start_up_current_level(
                    &self,
                    ctx: impl ReadContext,
                ) -> Result<Nullable<u8>, Error>;

                fn set_on_level(&self, ctx: impl WriteContext, value: Nullable<u8>) -> Done;
                fn set_options(&self, ctx: impl WriteContext, value: OptionsBitmap) -> Done;
                fn set_on_off_transition_time(&self, ctx: impl WriteContext, value: u16) -> Done;
                fn set_on_transition_time(
                    &self,
                    ctx: impl WriteContext,
                    value: Nullable<u16>,
                ) -> Done;
                fn set_off_transition_time(
                    &self,
                    ctx: impl WriteContext,
                    value: Nullable<u16>,
                ) -> Done;
                fn set_default_move_rate(
                    &self,
                    ctx: impl WriteContext,
                    value: Nullable<u8>,
                ) -> Done;
                fn set_start_up_current_level(
                    &self,
                    ctx: impl WriteContext,
                    value: Nullable<u8>,
                ) -> Done;

                fn handle_move_to_level(
                    &self,
                    ctx: impl InvokeContext,
                    request: Request<'_>,
                ) -> Done;
                fn handle_move(&self, ctx: impl InvokeContext, request: Request<'_>) -> Done;
                fn handle_step(&self, ctx: impl InvokeContext, request: Request<'_>) -> Done;
                fn handle_stop(&self, ctx: impl InvokeContext, request: Request<'_>) -> Done;
                fn handle_move_to_level_with_on_off(
                    &self,
                    ctx: impl InvokeContext,
                    request: Request<'_>,
                ) -> Done;
                fn handle_move_with_on_off(
                    &self,
                    ctx: impl InvokeContext,
                    request: Request<'_>,
                ) -> Done;
                fn handle_step_with_on_off(
                    &self,
                    ctx: impl InvokeContext,
                    request: Request<'_>,
                ) -> Done;
                fn handle_stop_with_on_off(
                    &self,
                    ctx: impl InvokeContext,
                    request: Request<'_>,
                ) -> Done;
                fn handle_move_to_closest_frequency(
                    &self,
                    ctx: impl InvokeContext,
                    request: Request<'_>,
                ) -> Done;
            }
        }
    }
}
