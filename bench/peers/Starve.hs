{-# LANGUAGE BangPatterns #-}
-- Starve COUNT SCANS: what `bench starve` does over cells, by GHC's stm over TVars. It tells the same, and counts each call of
-- a sum.
module Main where
import Control.Concurrent
import Control.Concurrent.STM
import Control.Monad
import Data.Array
import Data.Bits
import Data.IORef
import Data.Word
import GHC.Clock (getMonotonicTimeNSec)
import GHC.Conc (unsafeIOToSTM)
import System.Environment

writers :: Int
writers = 3

data Signs = Signs { begun :: IORef Int, over :: IORef Bool }

add :: TVar Word64 -> STM ()
add cell = do { had <- readTVar cell; let { !has = had + 1 }; writeTVar cell has }

total :: Array Int (TVar Word64) -> Int -> STM Word64
total cells count = go 0 0
  where
    go !at !sum' | at == count = pure sum'
                 | otherwise = do { one <- readTVar (cells ! at); go (at + 1) (sum' + one) }

lookAll :: Signs -> Array Int (TVar Word64) -> Int -> Int -> Word64 -> IO (Int, Int, Word64)
lookAll signs cells count scans rest = do
  let await = do { had <- readIORef (begun signs); unless (had >= writers) (yield >> await) }
  await
  attempts <- newIORef 0
  first <- getMonotonicTimeNSec
  if rest > 0 then threadDelay (fromIntegral (rest `div` 1000))
  else replicateM_ scans $ do
    !_ <- atomically (unsafeIOToSTM (modifyIORef' attempts (+ 1)) >> total cells count)
    pure ()
  lastly <- getMonotonicTimeNSec
  atomicWriteIORef (over signs) True
  tried <- readIORef attempts
  pure (scans, tried, lastly - first)

changeAll :: Signs -> Array Int (TVar Word64) -> TVar Word64 -> Int -> Int -> IO (Int, Int, Word64)
changeAll signs cells own count number = do
  first <- getMonotonicTimeNSec
  atomicModifyIORef' (begun signs) (\n -> (n + 1, ()))
  let go :: Int -> Word64 -> IO Int
      go !made !seed = do
        ended <- readIORef (over signs)
        if ended then pure made else do
          let seed' = seed * 6364136223846793005 + 1442695040888963407
              at = fromIntegral ((seed' `shiftR` 33) `mod` fromIntegral count)
          atomically (add (cells ! at) >> add own)
          go (made + 1) seed'
  made <- go 0 (fromIntegral number)
  lastly <- getMonotonicTimeNSec
  pure (made, 0, lastly - first)

run :: Array Int (TVar Word64) -> Int -> Int -> Word64 -> IO ((Int, Int, Word64), (Int, Word64))
run cells count scans rest = do
  signs <- Signs <$> newIORef 0 <*> newIORef False
  dones <- forM [0 .. writers] $ \number -> do
    done <- newEmptyMVar
    own <- newTVarIO 0
    let work = if number == 0 then lookAll signs cells count scans rest else changeAll signs cells own count number
    _ <- forkOn number (work >>= putMVar done)
    pure done
  shares <- mapM takeMVar dones
  let changed = [(made, nanos) | (made, _, nanos) <- drop 1 shares]
  pure (head shares, (sum (map fst changed), sum (map snd changed)))

main :: IO ()
main = do
  [count, scans] <- map read <$> getArgs
  cells <- listArray (0, count - 1) <$> replicateM count (newTVarIO 1)
  ((made, tried, nanos), (changes, busy)) <- run cells count scans 0
  (_, (alone, aloneBusy)) <- run cells count 0 (min 500000000 (max nanos 100000000))
  putStrLn (unwords ["scans", show made, "attempts", show tried, "nanos", show nanos, "changes", show changes, "busy", show busy,
    "spent 0 alone", show alone, "alone_busy", show aloneBusy])
