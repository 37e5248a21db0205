//! The calls over records, texts and lists, as a macro over the names of the C functions: `interface` has them
//! of the library, and the repository's benchmark of the same work in C by hand.

/// Declares a C function over a terminal that it changes and the default rows, and what follows these, and defines the
/// function that passes their pointers on.
#[doc(hidden)]
#[macro_export]
macro_rules! changing {
    ($symbol:expr, $name:ident($($more:ident: $kind:ty),*)) => {
        #[inline(always)]
        #[allow(clippy::too_many_arguments)]
        unsafe fn $name(
            tables: &mut $crate::Tables,
            waiting: &mut $crate::Waiting,
            defaults: $crate::Defaults,
            $($more: $kind),*
        ) {
            extern "C" {
                #[link_name = $symbol]
                fn called(
                    counts: *mut u8,
                    devowner: *mut u8,
                    rowners: *mut u8,
                    creds: *mut u8,
                    aces: *mut u8,
                    queue: *mut u8,
                    default_creds: *const u8,
                    default_creds_length: u64,
                    default_aces: *const u8,
                    default_aces_length: u64,
                    $($more: $kind),*
                );
            }
            let $crate::Defaults { creds, aces } = defaults;
            let ([t0, t1, t2, t3, t4], queue) = ($crate::interface::parts_mut(tables), waiting.bytes.as_mut_ptr());
            let (many, most) = (creds.len() as u64, aces.len() as u64);
            unsafe { called(t0, t1, t2, t3, t4, queue, creds.as_ptr(), many, aces.as_ptr(), most, $($more),*) }
        }
    };
}

/// Declares the C functions `PREFIX_judge_at` to `PREFIX_convert_list_at` and defines the functions that call them.
///
/// They take any bytes, keep no pointer and read and write within only the lengths. Each pointer and length is that of a
/// living slice or reference, and what is written to is borrowed for only the call.
#[doc(hidden)]
#[macro_export]
macro_rules! calls {
    ($prefix:literal) => {
        $crate::changing! {
            concat!($prefix, "_judge_at"),
            judge_at(clock: u32, record: *const u8, length: u64, reply: *mut u8, capacity: u64, said: *mut u64)
        }
        $crate::changing! {
            concat!($prefix, "_take_at"),
            take_at(clock: u32, reply: *mut u8, capacity: u64, said: *mut u64, length: *mut u64, bytes: *mut u8)
        }
        extern "C" {
            #[link_name = concat!($prefix, "_hand_in_at")]
            fn hand_in_at(
                counts: *const u8,
                devowner: *const u8,
                rowners: *const u8,
                creds: *const u8,
                aces: *const u8,
                queue: *mut u8,
                record: *const u8,
                length: u64,
                said: *mut u64,
            );
            #[link_name = concat!($prefix, "_access_list_at")]
            fn access_list_at(
                counts: *const u8,
                devowner: *const u8,
                rowners: *const u8,
                creds: *const u8,
                aces: *const u8,
                queue: *const u8,
                text: *mut u8,
                capacity: u64,
                said: *mut u64,
            );
            #[link_name = concat!($prefix, "_test_list_at")]
            fn test_list_at(rows: *const u8, length: u64, said: *mut u64);
            #[link_name = concat!($prefix, "_convert_list_at")]
            fn convert_list_at(file: *const u8, length: u64, rows: *mut u8, capacity: u64, said: *mut u64);
        }

        /// Judges a record at once, with a buffer for a reply. A refusal changes no byte.
        ///
        /// ```
        /// use tillerclover::{interface, record, Answer, Defaults, Resource, Tables, Verb, Waiting, ANYONE};
        /// let (mut tables, mut waiting, mut reply) = (Tables::default(), Waiting::FRESH, [0; interface::REPLY_MAX]);
        /// interface::fresh(&mut tables, &mut waiting, Defaults::default());
        /// let read = record(Verb::RETRIEVE, Resource::PSTAT, ANYONE, &[]);
        /// let outcome = interface::judge(&mut tables, &mut waiting, Defaults::default(), 0, &read, &mut reply);
        /// assert_eq!((outcome.answer, outcome.reply_length, reply[0]), (Answer::PERMITTED, 17, 1 << 5));
        /// ```
        #[inline]
        #[must_use]
        pub fn judge(
            tables: &mut $crate::Tables,
            waiting: &mut $crate::Waiting,
            defaults: $crate::Defaults,
            clock: u32,
            record: &[u8],
            reply: &mut [u8],
        ) -> $crate::Outcome {
            let (given, room, mut said) = (record.as_ptr(), reply.as_mut_ptr(), [0; 9]);
            let (length, capacity) = (record.len() as u64, reply.len() as u64);
            unsafe { judge_at(tables, waiting, defaults, clock, given, length, room, capacity, said.as_mut_ptr()) }
            $crate::Outcome::of(&said, record)
        }

        /// Hands a record in: it waits in its sender's place until its turn comes.
        #[inline]
        #[must_use]
        pub fn hand_in(tables: &$crate::Tables, waiting: &mut $crate::Waiting, record: &[u8]) -> $crate::Outcome {
            let ([t0, t1, t2, t3, t4], queue) = ($crate::interface::parts(tables), waiting.bytes.as_mut_ptr());
            let (length, mut said) = (record.len() as u64, [0; 9]);
            unsafe { hand_in_at(t0, t1, t2, t3, t4, queue, record.as_ptr(), length, said.as_mut_ptr()) }
            $crate::Outcome::of(&said, record)
        }

        /// Takes the record whose turn it is, and judges it.
        #[inline]
        #[must_use]
        pub fn take(
            tables: &mut $crate::Tables,
            waiting: &mut $crate::Waiting,
            defaults: $crate::Defaults,
            clock: u32,
            reply: &mut [u8],
        ) -> $crate::Taken {
            let (mut said, mut length, mut record) = ([0; 9], 0, [0; $crate::interface::RECORD_MAX]);
            let (room, said_at, bytes) = (reply.len() as u64, said.as_mut_ptr(), record.as_mut_ptr());
            unsafe { take_at(tables, waiting, defaults, clock, reply.as_mut_ptr(), room, said_at, &mut length, bytes) }
            $crate::Taken { outcome: $crate::Outcome::of(&said, &record), record_length: length as usize, record }
        }

        /// Writes the access list as the office's JSON.
        #[inline]
        #[must_use]
        pub fn access_list(tables: &$crate::Tables, waiting: &$crate::Waiting, text: &mut [u8]) -> $crate::Listed {
            let ([t0, t1, t2, t3, t4], queue) = ($crate::interface::parts(tables), waiting.bytes.as_ptr());
            let (capacity, mut said) = (text.len() as u64, [0; 2]);
            unsafe { access_list_at(t0, t1, t2, t3, t4, queue, text.as_mut_ptr(), capacity, said.as_mut_ptr()) }
            $crate::Listed { answer: $crate::Answer(said[0] as u8), length: said[1] as usize }
        }

        /// Tests a list of access rows before it is loaded.
        ///
        /// ```
        /// use tillerclover::{interface, Ace, Answer};
        /// let row = Ace { number: 1, ..Ace::default() }.body();
        /// assert_eq!(interface::test_list(&row[..35]).answer, Answer::TEST_BAD_SIZE);
        /// let tested = interface::test_list(&[row, row].concat());
        /// assert_eq!((tested.answer, tested.row), (Answer::TEST_NOT_STORABLE, 2));
        /// ```
        #[inline]
        #[must_use]
        pub fn test_list(rows: &[u8]) -> $crate::Tested {
            let mut said = [0; 2];
            unsafe { test_list_at(rows.as_ptr(), rows.len() as u64, said.as_mut_ptr()) }
            $crate::Tested { answer: $crate::Answer(said[0] as u8), row: said[1] as usize }
        }

        /// Makes access rows of an older terminal's list.
        ///
        /// ```
        /// use tillerclover::{interface, Ace, Answer, Connection, OldRow, Permission, Resource, Set, Subject, Uuid};
        /// let anybody = OldRow {
        ///     subject: Uuid::NIL,
        ///     permission: Permission::RETRIEVE,
        ///     resources: Set::of(&[Resource::WEIGHT]),
        ///     ..OldRow::default()
        /// };
        /// let mut rows = [0; interface::CONVERTED_MAX];
        /// let converted = interface::convert_list(&anybody.to_bytes(), &mut rows);
        /// assert_eq!((converted.answer, converted.length), (Answer::PERMITTED, 2 * Ace::LENGTH));
        /// let first = Ace::from_bytes(rows[..Ace::LENGTH].try_into()?);
        /// assert_eq!((first.number, first.subject), (1, Subject::Connection(Connection::AUTH_CRYPT)));
        /// # Ok::<(), core::array::TryFromSliceError>(())
        /// ```
        #[inline]
        #[must_use]
        pub fn convert_list(file: &[u8], rows: &mut [u8]) -> $crate::Converted {
            let (length, capacity, mut said) = (file.len() as u64, rows.len() as u64, [0; 2]);
            unsafe { convert_list_at(file.as_ptr(), length, rows.as_mut_ptr(), capacity, said.as_mut_ptr()) }
            $crate::Converted { answer: $crate::Answer(said[0] as u8), length: said[1] as usize }
        }
    };
}
