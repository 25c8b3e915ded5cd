use crate::Error;

/// Counts allocated memory in the original; here it does nothing.
#[derive(Debug, Clone)]
pub struct AllocTracker;

/// A grid with one row after another, without gaps.
#[derive(Debug)]
pub struct AlignedGrid<T> {
    width: usize,
    height: usize,
    cells: Vec<T>,
}

impl<T: Default + Clone> AlignedGrid<T> {
    pub fn empty() -> Self {
        Self::from_cells(0, 0, Vec::new())
    }

    pub fn with_alloc_tracker(
        width: usize,
        height: usize,
        _: Option<&AllocTracker>,
    ) -> Result<Self, Error> {
        let cells = vec![T::default(); width * height];
        Ok(Self::from_cells(width, height, cells))
    }

    /// The grid with these cells, one row after another.
    pub fn from_cells(width: usize, height: usize, cells: Vec<T>) -> Self {
        assert_eq!(cells.len(), width * height);
        Self {
            width,
            height,
            cells,
        }
    }

    /// The cells, one row after another.
    pub fn into_cells(self) -> Vec<T> {
        self.cells
    }

    pub fn width(&self) -> usize {
        self.width
    }

    pub fn height(&self) -> usize {
        self.height
    }

    pub fn buf(&self) -> &[T] {
        &self.cells
    }

    pub fn buf_mut(&mut self) -> &mut [T] {
        &mut self.cells
    }

    pub fn get_row(&self, row: usize) -> &[T] {
        &self.cells[row * self.width..][..self.width]
    }

    pub fn get_row_mut(&mut self, row: usize) -> &mut [T] {
        &mut self.cells[row * self.width..][..self.width]
    }
}
