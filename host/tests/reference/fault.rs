//! Rules that are wrong in one point, each with the rule of docs/SCOPE.md that it breaks.

#[derive(Clone, Copy, Debug, PartialEq, Eq)]
pub enum Fault {
    /// 3.1, 10.4: every arrival goes to the end of its list.
    ArrivalsAtTheEnd,
    /// 3.5, 10.2: of the blocked heads of a pair of ports that could be urgent only the first is.
    OneUrgentCellPerPairOfPorts,
    /// 3.5: a blocked head is urgent whatever stands in the crosspoints of its output.
    UrgentWithoutTheOutputsCrosspoints,
    /// 3.7: a matched cell goes straight even if it is a scheduled one.
    MatchedScheduledCellGoesStraight,
    /// 3.8, 10.3: an output to which a cell came straight takes one from a crosspoint too.
    StraightOutputAlsoReadsACrosspoint,
    /// 3.7: an input whose urgent cell went straight sends its scheduled cell too.
    UrgentAndScheduledBothSent,
    /// 3.2: a slot has one phase.
    PhaseTwoLeftOut,
    /// 6.2: 7 and 8 go by the cells in the lists, not by all that wait.
    Checks7And8OnTheListAlone,
    /// 2.3: the PIFO switch compares slots before ranks.
    PifoBySlotBeforeRank,
    /// 2.3: in the crossbar alone the smaller input wins a tie.
    CrossbarTieToSmallerInput,
    /// 2.3: in the PIFO switch alone the smaller input wins a tie.
    PifoTieToSmallerInput,
    /// 2.3: the crossbar's round goes down from its first input.
    RoundBackwards,
    /// 2.3: the crossbar's round begins at input `slot`, not `slot mod N`; from slot N on there is none, and 0 goes first.
    RoundFromSlotWithoutMod,
    /// 2.3: the crossbar's round is that of the clock, not that of the slot in which the cells were accepted.
    RoundOfTheClock,
    /// 4.3: the PIFO switch sends, of each queue, the cell that came first.
    PifoSendsTheOldest,
    /// 4.3: a cell that the PIFO switch has sent stays in its queue.
    PifoKeepsADepartedCell,
    /// 4.3: the PIFO switch sends before the cells of the slot have joined their queues.
    PifoSendsBeforeTheArrivalsJoin,
    /// docs/LAYOUT.md: in the table of the output-queued switch a new cell stands first in its section.
    NewCellStandsFirst,
    /// docs/LAYOUT.md: the last cell of a section takes the place of one that departed.
    LastCellFillsTheGap,
    /// 10.1: an input proposes the cell of the smallest cushion first.
    SmallestCushionProposedFirst,
    /// 3.8: crosspoints are counted as the phase starts, without the cells that it sends.
    OccupancyBeforeCellsAreSent,
    /// 3.8: crosspoints are counted when the outputs have taken their cells.
    OccupancyAfterCellsAreTaken,
    /// 3.8: an output to which a cell came straight has the occupancy 0.
    NoOccupancyWhereACellCameStraight,
    /// 13.1: names are the same if their first seven letters are.
    NamesBySevenLetters,
    /// 13.3: the cue of a held name stays as it was.
    HeldNameKeepsItsSwitch,
    /// 13.3: a held name takes a free place too.
    HeldNameTakesASecondPlace,
    /// 13.3: with four held, also a held name is refused with 12.
    FullBeforeAHeldName,
    /// 13.3: with four held, a new name writes over the cue in the last place.
    FifthNameTakesTheLastPlace,
    /// 13.3: a new name takes the highest free place.
    NewNameTakesTheHighestFreePlace,
    /// 13.4: a dropped cue is still held.
    DroppedCueStays,
    /// 13.5: a return drops the cue.
    ReturnDropsTheCue,
    /// 13.5: a return keeps the clock that the switch has.
    ClockKeptOnReturn,
    /// 13.9: the PIFO switch is not brought back.
    PifoKeptOnReturn,
    /// 13.5, 15.3: a return keeps the ranks that the switch remembers.
    MemoryKeptOnReturn,
    /// 15.2: a rank is made from the last one that left alone.
    GivenRankForgotten,
    /// 15.2: a rank is made from the last one given to the flow alone.
    LeftRankForgotten,
    /// 15.2: the stride is rounded up.
    StrideRoundedUp,
    /// 15.3: a pair of ports has one rank given for all its flows.
    OneMemoryPerPairOfPorts,
    /// 15.3: the records before the one at fault are remembered.
    RefusedSlotRemembers,
    /// 15.4: at a fair output 7 goes by the weight.
    FallingRankByWeight,
}
