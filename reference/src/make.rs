//! 02, 2.1: datagrams made here, and refusals 15 and 16.

use crate::datagram::{encode, Fields, Readings};
use crate::layout::{layout_of, Layout};
use crate::setup::{judge_setup, Setup};
use crate::{Refusal, HIGHEST_READING, LOWEST_READING};

/// How many values a datagram is made from.
pub const VALUE_COUNT: usize = 28;

/// What a datagram is made from beside its setup: the fields of [`Fields`], each
/// in a number that is wide enough to be outside its field.
#[derive(Clone, Copy, Debug, PartialEq, Eq)]
pub struct Values {
    pub readings: Readings,
    pub statuses: [i32; 3],
    pub temperatures: [[i32; 3]; 3],
    pub temperature_statuses: [i32; 3],
    pub aux: i32,
    pub aux_status: i32,
    pub counter: i32,
    /// In microseconds.
    pub latency: i32,
}

impl Values {
    pub const ZEROS: Values = Values {
        readings: [[0; 3]; 3],
        statuses: [0; 3],
        temperatures: [[0; 3]; 3],
        temperature_statuses: [0; 3],
        aux: 0,
        aux_status: 0,
        counter: 0,
        latency: 0,
    };

    /// The values that an accepted datagram's fields are.
    pub fn of_fields(fields: &Fields) -> Values {
        Values {
            readings: fields.readings,
            statuses: fields.statuses.map(i32::from),
            temperatures: fields.temperatures.map(|group| group.map(i32::from)),
            temperature_statuses: fields.temperature_statuses.map(i32::from),
            aux: fields.auxiliary,
            aux_status: fields.auxiliary_status.into(),
            counter: fields.counter.into(),
            latency: fields.latency.into(),
        }
    }

    /// All of them in a row: nine readings, three statuses, nine temperatures,
    /// three temperature statuses, AUX, AUX status, counter, latency.
    pub fn list(&self) -> [i32; VALUE_COUNT] {
        let mut list = self.readings.concat();
        list.extend(self.statuses);
        list.extend(self.temperatures.concat());
        list.extend(self.temperature_statuses);
        list.extend([self.aux, self.aux_status, self.counter, self.latency]);
        list.try_into().expect("there are 28")
    }

    /// The values that stand in such a row.
    pub fn of_list(list: &[i32; VALUE_COUNT]) -> Values {
        let by_group = |first: usize| std::array::from_fn(|group| list[first + group]);
        let by_axis = |first: usize| std::array::from_fn(|group| by_group(first + 3 * group));
        Values {
            readings: by_axis(0),
            statuses: by_group(9),
            temperatures: by_axis(12),
            temperature_statuses: by_group(21),
            aux: list[24],
            aux_status: list[25],
            counter: list[26],
            latency: list[27],
        }
    }
}

/// Writes the datagram into the front of a lent buffer and returns how many
/// bytes it has. Refusals 4 to 9 for the setup, then 15, then 16; a refusal
/// leaves the buffer untouched.
pub fn write_datagram(setup: &Setup, values: &Values, buffer: &mut [u8]) -> Result<usize, Refusal> {
    judge_setup(setup)?;
    let layout = layout_of(setup.identifier).expect("the setup was judged");
    // 15. A value is outside its field's width, or not 0 in a part that the
    // identifier doesn't carry.
    let fields = fields_of(values).ok_or(15)?;
    if !is_zero_where_not_carried(&layout, &fields) {
        return Err(15);
    }
    let datagram = encode(setup, &fields);
    // 16. The lent buffer is shorter than L.
    if buffer.len() < datagram.len() {
        return Err(16);
    }
    buffer[..datagram.len()].copy_from_slice(&datagram);
    Ok(datagram.len())
}

/// The values as fields, if each is within its field's width: readings and AUX
/// 24 bits signed, temperatures 16 bits signed, statuses and counter 8 bits,
/// latency 16 bits.
fn fields_of(values: &Values) -> Option<Fields> {
    let mut fields = Fields::ZEROS;
    for group in 0..3 {
        for axis in 0..3 {
            fields.readings[group][axis] = reading(values.readings[group][axis])?;
            fields.temperatures[group][axis] =
                i16::try_from(values.temperatures[group][axis]).ok()?;
        }
        fields.statuses[group] = u8::try_from(values.statuses[group]).ok()?;
        fields.temperature_statuses[group] =
            u8::try_from(values.temperature_statuses[group]).ok()?;
    }
    fields.auxiliary = reading(values.aux)?;
    fields.auxiliary_status = u8::try_from(values.aux_status).ok()?;
    fields.counter = u8::try_from(values.counter).ok()?;
    fields.latency = u16::try_from(values.latency).ok()?;
    Some(fields)
}

fn reading(value: i32) -> Option<i32> {
    (LOWEST_READING..=HIGHEST_READING)
        .contains(&value)
        .then_some(value)
}

/// Whether all that the identifier doesn't carry is 0, statuses too.
fn is_zero_where_not_carried(layout: &Layout, fields: &Fields) -> bool {
    for group in 0..3 {
        let group_is_zero = fields.readings[group] == [0; 3] && fields.statuses[group] == 0;
        if !layout.carries[group] && !group_is_zero {
            return false;
        }
        let temperatures_are_zero =
            fields.temperatures[group] == [0; 3] && fields.temperature_statuses[group] == 0;
        if !(layout.carries[group] && layout.temperatures) && !temperatures_are_zero {
            return false;
        }
    }
    layout.auxiliary || (fields.auxiliary == 0 && fields.auxiliary_status == 0)
}
