// @generated from crates/variations/src/laws.rt by tools/erase

//! Laws of advances, as contracts of functions that make the calls and return their results.

#[cfg(doc)]
use crate::definitions::font_ids::FWord_antt::ufword_number;
#[cfg(doc)]
use crate::definitions::variations::{
    Advances_antt::{HasData, regions_of, subtable_of},
    Variations_antt::{HasNoVaried, HasSet, IsNoVariation, IsVaried},
};

use super::instances::StoreInstance;
use super::maps::DeltaSetIndex;
use font_types_proved::UfWord;

/// Returns an advance as an instance varies it, and as its store does without a buffer: both are
/// the same.
///
/// <details><summary>Contract</summary>
///
/// ```text
/// ensures unvaried { IsNoVariation set.outer set.inner → result.0 ≡ Some advance }
/// ensures value { ¬ IsNoVariation set.outer set.inner → MatchOption result.0
///     ((¬ HasData instance.now.store.bytes.now set.outer set.inner) ⊎ HasNoVaried
///     (regions_of instance.now.store.bytes.now)
///     (subtable_of instance.now.store.bytes.now set.outer) instance.now.coordinates.now
///     set.inner (ufword_number advance))
///     (λ varied. HasData instance.now.store.bytes.now set.outer set.inner
///     × HasSet (regions_of instance.now.store.bytes.now)
///     (subtable_of instance.now.store.bytes.now set.outer) set.inner
///     × IsVaried (regions_of instance.now.store.bytes.now)
///     (subtable_of instance.now.store.bytes.now set.outer) instance.now.coordinates.now
///     set.inner (ufword_number advance) (pos (ufword_number varied))) }
/// ensures equal { result.0 ≡ result.1 }
/// ```
/// [Notation](crate::definitions): [`IsNoVariation`], [`HasData`], [`HasNoVaried`], [`regions_of`], [`subtable_of`], [`ufword_number`], [`HasSet`], [`IsVaried`]
/// </details>
#[must_use]
pub fn varied_alike(
    instance: &StoreInstance<'_>,
    advance: UfWord,
    set: DeltaSetIndex,
) -> (Option<UfWord>, Option<UfWord>) {
    let by_instance = instance.vary_advance(advance, set);
    let by_store = instance.store().vary_advance(advance, set, instance.coordinates());
    (by_instance, by_store)
}
