//! The names of calendars in CLDR (UTS 35, the key `ca`).

/// A calendar algorithm of CLDR (UTS 35, the key `ca`).
///
/// # Examples
///
/// ```
/// use icu_calendar::preferences::CalendarAlgorithm;
/// use icu_calendar::AnyCalendarKind;
///
/// assert_eq!(AnyCalendarKind::try_from(CalendarAlgorithm::Dangi), Ok(AnyCalendarKind::Dangi));
/// ```
#[derive(Clone, Copy, Debug, PartialEq, Eq, Hash)]
pub enum CalendarAlgorithm {
    /// `buddhist`
    Buddhist,
    /// `chinese`
    Chinese,
    /// `coptic`
    Coptic,
    /// `dangi`
    Dangi,
    /// `ethioaa`
    Ethioaa,
    /// `ethiopic`
    Ethiopic,
    /// `gregory`
    Gregory,
    /// `hebrew`
    Hebrew,
    /// `islamic`, alone or with its kind
    Hijri(Option<HijriCalendarAlgorithm>),
    /// `indian`
    Indian,
    /// `iso8601`
    Iso8601,
    /// `japanese`
    Japanese,
    /// `persian`
    Persian,
    /// `roc`
    Roc,
}

/// A kind of the algorithm `islamic` of CLDR (UTS 35, the key `ca`).
///
/// # Examples
///
/// ```
/// use icu_calendar::preferences::{CalendarAlgorithm, HijriCalendarAlgorithm};
///
/// let civil = CalendarAlgorithm::Hijri(Some(HijriCalendarAlgorithm::Civil));
/// assert_eq!(civil.as_str(), "islamic-civil");
/// ```
#[derive(Clone, Copy, Debug, PartialEq, Eq, Hash)]
pub enum HijriCalendarAlgorithm {
    /// `islamic-civil`
    Civil,
    /// `islamic-rgsa`
    Rgsa,
    /// `islamic-tbla`
    Tbla,
    /// `islamic-umalqura`
    Umalqura,
}

impl CalendarAlgorithm {
    /// Returns the name of the algorithm, such as `gregory` or `islamic-civil`.
    ///
    /// # Examples
    ///
    /// ```
    /// use icu_calendar::preferences::CalendarAlgorithm;
    ///
    /// assert!(CalendarAlgorithm::Gregory.as_str() == "gregory");
    /// ```
    pub fn as_str(&self) -> &'static str {
        match self {
            CalendarAlgorithm::Buddhist => "buddhist",
            CalendarAlgorithm::Chinese => "chinese",
            CalendarAlgorithm::Coptic => "coptic",
            CalendarAlgorithm::Dangi => "dangi",
            CalendarAlgorithm::Ethioaa => "ethioaa",
            CalendarAlgorithm::Ethiopic => "ethiopic",
            CalendarAlgorithm::Gregory => "gregory",
            CalendarAlgorithm::Hebrew => "hebrew",
            CalendarAlgorithm::Hijri(None) => "islamic",
            CalendarAlgorithm::Hijri(Some(HijriCalendarAlgorithm::Civil)) => "islamic-civil",
            CalendarAlgorithm::Hijri(Some(HijriCalendarAlgorithm::Rgsa)) => "islamic-rgsa",
            CalendarAlgorithm::Hijri(Some(HijriCalendarAlgorithm::Tbla)) => "islamic-tbla",
            CalendarAlgorithm::Hijri(Some(HijriCalendarAlgorithm::Umalqura)) => "islamic-umalqura",
            CalendarAlgorithm::Indian => "indian",
            CalendarAlgorithm::Iso8601 => "iso8601",
            CalendarAlgorithm::Japanese => "japanese",
            CalendarAlgorithm::Persian => "persian",
            CalendarAlgorithm::Roc => "roc",
        }
    }

    /// Returns the algorithm with this name, or `None` if no algorithm has it.
    ///
    /// # Examples
    ///
    /// ```
    /// use icu_calendar::cal::Hebrew;
    /// use icu_calendar::preferences::CalendarAlgorithm;
    ///
    /// assert!(CalendarAlgorithm::from_name(b"hebrew") == Some(CalendarAlgorithm::Hebrew));
    /// ```
    pub fn from_name(bytes: &[u8]) -> Option<CalendarAlgorithm> {
        ALGORITHMS
            .iter()
            .copied()
            .find(|algorithm| bytes == algorithm.as_str().as_bytes())
    }
}

/// All algorithms.
const ALGORITHMS: [CalendarAlgorithm; 18] = [
    CalendarAlgorithm::Buddhist,
    CalendarAlgorithm::Chinese,
    CalendarAlgorithm::Coptic,
    CalendarAlgorithm::Dangi,
    CalendarAlgorithm::Ethioaa,
    CalendarAlgorithm::Ethiopic,
    CalendarAlgorithm::Gregory,
    CalendarAlgorithm::Hebrew,
    CalendarAlgorithm::Hijri(None),
    CalendarAlgorithm::Hijri(Some(HijriCalendarAlgorithm::Civil)),
    CalendarAlgorithm::Hijri(Some(HijriCalendarAlgorithm::Rgsa)),
    CalendarAlgorithm::Hijri(Some(HijriCalendarAlgorithm::Tbla)),
    CalendarAlgorithm::Hijri(Some(HijriCalendarAlgorithm::Umalqura)),
    CalendarAlgorithm::Indian,
    CalendarAlgorithm::Iso8601,
    CalendarAlgorithm::Japanese,
    CalendarAlgorithm::Persian,
    CalendarAlgorithm::Roc,
];

/// The defaults for what a caller leaves open.
///
/// # Examples
///
/// ```
/// use icu_calendar::preferences::{CalendarAlgorithm, CalendarPreference, HijriCalendarAlgorithm};
///
/// let preference = CalendarPreference {
///     default_algorithm: CalendarAlgorithm::Gregory,
///     default_hijri_algorithm: HijriCalendarAlgorithm::Umalqura,
/// };
/// assert_eq!(preference.resolve(Some(CalendarAlgorithm::Roc)), CalendarAlgorithm::Roc);
/// ```
#[derive(Clone, Copy, Debug, PartialEq, Eq, Hash)]
pub struct CalendarPreference {
    /// The algorithm if none is given.
    pub default_algorithm: CalendarAlgorithm,
    /// The kind if the algorithm is `islamic` alone.
    pub default_hijri_algorithm: HijriCalendarAlgorithm,
}

impl CalendarPreference {
    /// Returns the algorithm to use: the default if none is given, the default kind for `islamic` alone, and any
    /// other unchanged.
    ///
    /// # Examples
    ///
    /// ```
    /// use icu_calendar::preferences::{CalendarAlgorithm, CalendarPreference, HijriCalendarAlgorithm};
    ///
    /// let preference = CalendarPreference {
    ///     default_algorithm: CalendarAlgorithm::Gregory,
    ///     default_hijri_algorithm: HijriCalendarAlgorithm::Umalqura,
    /// };
    /// assert!(preference.resolve(None) == CalendarAlgorithm::Gregory);
    /// ```
    pub fn resolve(&self, unresolved: Option<CalendarAlgorithm>) -> CalendarAlgorithm {
        match unresolved {
            None => self.default_algorithm,
            Some(CalendarAlgorithm::Hijri(None)) => {
                CalendarAlgorithm::Hijri(Some(self.default_hijri_algorithm))
            }
            Some(algorithm) => algorithm,
        }
    }
}
