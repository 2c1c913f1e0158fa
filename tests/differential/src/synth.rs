//! Stand-ins for the sound types that style.rs names. Only its `sound` fields hold them, and no note,
//! hit or form is made from those.

pub(crate) struct Sound {
    pub(crate) pad: PadTone,
    pub(crate) chord: ChordTone,
    pub(crate) sparkle: NoteRecipe,
    pub(crate) keys: NoteRecipe,
    pub(crate) bass: NoteRecipe,
    pub(crate) drums: HitRecipe,
    pub(crate) bed: Bed,
}

pub(crate) struct PadTone {
    pub(crate) cutoff_hz: f32,
    pub(crate) swell_hz: f32,
    pub(crate) swell_depth: f32,
    pub(crate) peak: f32,
}

pub(crate) struct ChordTone {
    pub(crate) ring_s: f32,
    pub(crate) attack_s: f32,
    pub(crate) attack_step_s: f32,
    pub(crate) release_s: f32,
    pub(crate) h2: f32,
    pub(crate) h3: f32,
    pub(crate) gain: f32,
}

pub(crate) struct NoteRecipe {
    pub(crate) cutoff_hz: f32,
    pub(crate) peak: f32,
}

pub(crate) struct HitRecipe {
    pub(crate) cutoff_hz: f32,
    pub(crate) drive: f32,
    pub(crate) peak: f32,
}

pub(crate) enum Bed {
    Free,
    Breathing,
}
