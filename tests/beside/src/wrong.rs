//! Wrong readings of 01 that can be planted in paper.rs, to see that the runs catch each one.

use std::sync::atomic::{AtomicUsize, Ordering};

macro_rules! wrong_readings {
    ($($name:ident $text:literal)*) => {
        #[derive(Clone, Copy, PartialEq, Debug)]
        pub enum Wrong { Nothing, $($name),* }

        /// Each wrong reading with what it says. The first five are the traps that 01 lists.
        pub const ALL: &[(Wrong, &str)] = &[$((Wrong::$name, $text)),*];
    };
}

wrong_readings! {
    SummedLoad "all overlapping units are added instead of the load per instant (trap, M5)"
    JoinedWindows "touching windows are joined for unbroken work (trap, M7)"
    JointSpan "choosing goes by the joint span (trap, M12)"
    OneRound "choosing stops after one round (trap, M11)"
    EqualPairDefault "an absent equal pair is read as the default (trap)"
    ZeroSpanAtWindowEnd "a span of 0 does not fit at a window's end"
    ZeroSpanFree "a span of 0 is free inside a booking (M4)"
    BlockEndBlocked "a block's end counts as blocked"
    WindowEndWorking "a window's end counts as working"
    ApartWorking "touching windows do not join for working time (M7)"
    EndAfterPause "work that ends with a stretch ends after the pause behind it"
    StartInPause "resumable work may start in a pause"
    FreeWhileWorking "resumable work holds its diary only while it works"
    CapacityAsGiven "a given capacity of 0 stays 0"
    UnitsAtCapacity "units may not reach the capacity"
    TiesByBoardOrder "equal starts are sorted by board order alone"
    TiesByNumber "equal keys are sorted by resource number"
    ProcessFirst "the shorter process goes before the sooner start"
    LastEqualDurations "the last of own durations with equal totals wins"
    LeastDurations "own durations of least total win"
    SpeedBeforeDurations "speeds win over own durations"
    SpeedOnce "the speed of a resource held twice counts once"
    HalfToEven "halves are rounded to even (M10)"
    RoundDown "the quotient is rounded down"
    LeastSetup "the span has the least setup among held"
    OrderSetup "a matrix resource uses the order's setup"
    FirstAsPair "where nothing was last, the pair of equal categories is used"
    SwappedPair "the pair is read as (this, last)"
    AbsentFirstZero "an absent first entry is 0"
    ArrivalIgnored "transport is ignored"
    LeastTransport "transport is the least over the places come from"
    TransportBack "transport is read the other way round"
    ReleaseIgnored "release is ignored"
    SkillsAny "one of the required skills is enough"
    TypeBesideCandidates "a candidate must have the type too"
    CompanionOffBoard "a companion not on the board is passed over"
    CompanionUsage "a companion is asked for the requirement's usage"
    CompanionJoint "a companion's resumable work in choosing runs on the joint calendar"
    CompanionsLater "companions are not looked at in choosing"
    CompanionTiming "a companion's timing counts"
    CompanionSetup "a companion's setup counts"
    CompanionTwice "a companion already held joins again"
    CompanionsOfCompanions "companions of companions join"
    OwnCalendarIgnored "the order's own calendar is ignored"
    OwnCalendarChoosing "the order's own calendar counts in choosing"
    FitFromReady "fitting starts at ready instead of the choosing instant"
    FitEachAlone "the greatest of the entries' least starts is taken as the fit"
    TimingsWithoutRequirements "a speed counts in an order without requirements"
    CompanionTakesCategory "a companion takes the category when committed"
    CategoryWithoutMatrix "a resource without a matrix takes the category when committed"
    CommitOneUnit "a commitment books one unit"
}

static PLANTED: AtomicUsize = AtomicUsize::new(0);

pub fn plant(which: Wrong) {
    PLANTED.store(which as usize, Ordering::Relaxed);
}

/// Whether this wrong reading is planted.
pub fn wrong(which: Wrong) -> bool {
    PLANTED.load(Ordering::Relaxed) == which as usize
}
